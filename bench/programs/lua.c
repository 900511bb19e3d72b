/* Runs the Lua program that the input holds. */
#include <stdio.h>
#include <unistd.h>
#include "lauxlib.h"
#include "lualib.h"

int main(void) {
    static char text[1 << 16];
    size_t length = 0;
    ssize_t count;
    while ((count = read(0, text + length, sizeof text - length)) > 0)
        length += (size_t)count;
    lua_State *state = luaL_newstate();
    luaL_openlibs(state);
    if (luaL_loadbuffer(state, text, length, "=input") || lua_pcall(state, 0, 0, 0)) {
        puts(lua_tostring(state, -1));
        return 1;
    }
    lua_close(state);
    return 0;
}
