/* on_board.c - the replay as firmware: the record is the file 'calls' of the debugger's machine. */
#include "board.h"
#include "replay.h"

static int handle;

size_t replay_read(uint8_t *to, size_t most)
{
    return board_read(handle, to, most);
}

void replay_say(const char *text)
{
    board_say(text);
}

int main(void)
{
    handle = board_open("calls");
    if (handle < 0) {
        board_say("no file 'calls'\n");
        return 2;
    }
    return replay();
}
