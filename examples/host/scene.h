/* scene.h - the scene that both examples play: on a computer, and as firmware on a board. */
#ifndef SCENE_H
#define SCENE_H

void scene(void);

#endif
