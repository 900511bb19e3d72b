// What C++ without exceptions and run-time types needs of its library.
#include <stddef.h>
#include <stdlib.h>

#include "guest.h"

LIBRARY void *operator new(size_t size)
{
    void *place = malloc(size > 0 ? size : 1);
    if (place == nullptr)
        abort();
    return place;
}

LIBRARY void *operator new[](size_t size)
{
    return operator new(size);
}

LIBRARY void operator delete(void *place) noexcept
{
    free(place);
}

LIBRARY void operator delete[](void *place) noexcept
{
    free(place);
}

LIBRARY void operator delete(void *place, size_t) noexcept
{
    free(place);
}

LIBRARY void operator delete[](void *place, size_t) noexcept
{
    free(place);
}

extern "C" LIBRARY void __cxa_pure_virtual()
{
    abort();
}
