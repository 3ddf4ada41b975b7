/* What the two halves of the face share: tests of structs and buffers, and what stands for a null pointer, which no proved export
 * takes. */
#ifndef MEZULOBU_FACE_H
#define MEZULOBU_FACE_H

#include "mezulobu.h"

/* Whether bytes are missing: they may be null where there are none. */
static inline bool lacks(const void *bytes, size_t size) { return !bytes && size; }

/* A buffer with its size, which are null together where the caller wants no such text. */
static inline bool lacks_room(const void *buffer, const size_t *size) { return size ? lacks(buffer, *size) : buffer != NULL; }

/* A platform without null pointers; false where it is misused. */
bool mezulobu_mend_platform(struct mezulobu_platform *p);

/* What mezulobu_mend_participant answers of one that isn't misused: no index of an entry, nor NOBODY. */
#define SOUND (SIZE_MAX - 1)

/* The same of a participant: SOUND, or the index of the entry that is misused, or NOBODY where it is the participant's own struct. */
size_t mezulobu_mend_participant(struct mezulobu_participant *p);

/* Says which struct is misused: its kind, and of a participant the index, and of an entry its own. Answers MISUSED. */
int mezulobu_misused(struct mezulobu_refusal *why, uint32_t kind, size_t who, size_t index);

#endif
