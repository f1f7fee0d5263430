/* The calls by number, for objects with whichever release's header. The first ten are those of the releases before 0.4.0. */
#ifndef WORDS_H
#define WORDS_H

enum word { ENTER, LOOK, LEAVE, CLAIM, WRITE, SWAP, SYNC, RAISE, WALK, RELEASE, PICK, CHECKPOINT, DEFER, ALL_CALLS, TEN_CALLS = PICK };

#endif
