/*
 * A C host: runs the example of the rules and prints its ten lines.
 *
 *     cc -I include examples/host.c ../target/staticlib/librunner.a -o host && ./host
 */
#include "channel_run.h"

#include <stdio.h>

static const uint8_t script[] =
    "CH\0\2"
    "RG"
    "WR\2" "\0\0\0\7" "\0\0\0\10"
    "WR\1" "\0\0\0\11"
    "RD\0"
    "RD\0"
    "CL\0"
    "WW"
    "WR\5" "\0\0\0\1" "\0\0\0\2" "\0\0\0\3" "\0\0\0\4" "\0\0\0\5"
    "RG";

int main(void)
{
    uint8_t out[4096];
    /* the string's own end is no part of the script */
    int64_t answer = channel_run_script(script, sizeof script - 1, out, sizeof out);

    if (answer < 0) {
        printf("fault %d\n", (int)-answer);
        return 1;
    }
    fwrite(out, 1, (size_t)answer, stdout);
    return 0;
}
