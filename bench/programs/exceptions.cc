// What procedures compiled with exceptions refer to. No exception is thrown.
#include <stdlib.h>

extern "C" void __gxx_personality_v0()
{
    abort();
}

extern "C" void __cxa_begin_catch()
{
    abort();
}

extern "C" void __cxa_throw_bad_array_new_length()
{
    abort();
}

namespace std {
[[noreturn]] void terminate() noexcept
{
    abort();
}
}
