/* dspec_memory.h: sessions in memory of a program's own, such as a file that is mapped and shared, which outlives the process. For C11 and C++17, beside dspec.h. All of
 * this was tested, and isn't proved.
 *
 *     dspec_memory_for(&config, &schema, &bytes)
 *     void *memory = mmap(address, bytes, PROT_READ | PROT_WRITE, MAP_SHARED | MAP_FIXED_NOREPLACE, file, 0);
 *     dspec_start_in(&config, &schema, memory, bytes, &session)
 *     void *before = dspec_memory_turn(memory);                    handles that are handed out take memory too
 *     dspec_cpu_of(&session, 0, &cpu)
 *     dspec_memory_turn(before);
 *     ..
 *     dspec_memory_end(memory)                                     after the session's end
 *
 * Nothing of such a session is in memory of malloc's but the handles, which are the caller's, and nothing that is taken is given back before the end. It has pointers into itself: whoever
 * reads it later, with the same build of this library (dspec_build), maps it at the address where it was. dspec_tracer.h does all this by `survive`, and dspec_salvage reads it.
 */
#ifndef DSPEC_MEMORY_H
#define DSPEC_MEMORY_H

#include "dspec.h"

#ifdef __cplusplus
extern "C" {
#endif

/* The most memories that are begun at a time. */
#define DSPEC_MAX_MEMORIES 128u

/* How many bytes a session of this configuration and schema takes, with the handles of all its CPUs and of its consumer. It starts such a session in memory of malloc's, and drops it.
 * As dspec_start. */
dspec_status dspec_memory_for(const dspec_config *config, dspec_schema *schema, size_t *bytes) DSPEC_NOEXCEPT;

/* Lets the library take from these bytes of memory, which begin at a multiple of 16, and says so at their beginning.
 * DSPEC_OK. DSPEC_NO_MEMORY: there are fewer than 64 bytes, they begin elsewhere, or as many memories are begun as may be. */
dspec_status dspec_memory_begin(void *memory, size_t bytes) DSPEC_NOEXCEPT;

/* From here on this thread's calls of the library take from a memory that was begun, and where that has no room they answer DSPEC_NO_MEMORY; NULL: from malloc. Answers where they took
 * from before. */
void *dspec_memory_turn(void *memory) DSPEC_NOEXCEPT;

/* The library takes no more from this memory, and has nothing there that it will use or give back. */
void dspec_memory_end(void *memory) DSPEC_NOEXCEPT;

/* Begins a memory, and starts a session in it.
 * As dspec_start and dspec_memory_begin; where it isn't DSPEC_OK the memory isn't begun. */
dspec_status dspec_start_in(const dspec_config *config, dspec_schema *schema, void *memory, size_t bytes, dspec_session *session) DSPEC_NOEXCEPT;

/* Which build of the library this is: a text that another build doesn't have. */
const char *dspec_build(void) DSPEC_NOEXCEPT;

#ifdef __cplusplus
} /* extern "C" */
#endif
#endif
