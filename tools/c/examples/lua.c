/* Lua with its own libraries, but for those of files and of the system, and one script, which is in script.inc as numbers of bytes. */
#include <stdio.h>
#include "lauxlib.h"
#include "lua.h"
#include "lualib.h"

static const char script[] = {
#include "script.inc"
};

static const luaL_Reg libraries[] = {
    {LUA_GNAME, luaopen_base},
    {LUA_COLIBNAME, luaopen_coroutine},
    {LUA_TABLIBNAME, luaopen_table},
    {LUA_STRLIBNAME, luaopen_string},
    {LUA_MATHLIBNAME, luaopen_math},
    {LUA_UTF8LIBNAME, luaopen_utf8},
};

int main(void)
{
    lua_State *lua = luaL_newstate();

    if (!lua)
        return 1;
    for (unsigned i = 0; i < sizeof libraries / sizeof *libraries; i++) {
        luaL_requiref(lua, libraries[i].name, libraries[i].func, 1);
        lua_pop(lua, 1);
    }
    if (luaL_loadbuffer(lua, script, sizeof script, "=lua.lua") != LUA_OK || lua_pcall(lua, 0, 0, 0) != LUA_OK) {
        puts(lua_tostring(lua, -1));
        return 2;
    }
    lua_close(lua);
    return 0;
}
