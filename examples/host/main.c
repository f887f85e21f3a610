/* main.c - the scene on a computer. */
#include "say.h"
#include "scene.h"

#include <stdio.h>

void say(const char *text)
{
    fputs(text, stdout);
}

int main(void)
{
    scene();
    return fflush(stdout) == 0 ? 0 : 1;
}
