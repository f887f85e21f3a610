/* main.c - the scene as firmware: the same lines, by way of the board's debugger. */
#include "board.h"
#include "say.h"
#include "scene.h"

void say(const char *text)
{
    board_say(text);
}

int main(void)
{
    scene();
    return 0;
}
