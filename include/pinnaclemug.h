/* The proved functions for C and C++. Link the archive that `bash compare/archive` writes; it is for x86-64 Linux.
 *
 * Every function but pm_write takes filed words, document 01's 32-bit words in the machine's byte order; pm_write takes the parts of a module and writes
 * these words. Each returns one number: its answer, or a refusal.
 *
 * A refusal is packed alike by all: its number (1 to 16) in the highest 8 bits, its chunk in the next 24, its place in the lowest 32. No answer
 * reaches the highest 8 bits, so that a packed value is a refusal if and only if they are not 0. Chunk and place of a refusal are kept whole but where
 * a caller hands in more than they have room for: the chunk is kept modulo 2^24, so that refusal 12 for chunk 16,777,216 reads as chunk 0, and a place
 * modulo 2^32.
 *
 * Lent lists: each pointer is valid for its length while the call lasts, and no list that is written overlaps another list of the call. Nothing is
 * read or written at or beyond a list's length, so a pointer whose length is 0 is not followed. A refusal leaves the lists as they were.
 *
 * The functions keep nothing between calls. A caller gives 512 KiB of stack. */
#ifndef PINNACLEMUG_H
#define PINNACLEMUG_H

#include <stddef.h>
#include <stdint.h>

/* The most words and chunks of a module. */
#define PM_WORDS 16384
#define PM_CHUNKS 256

/* The values of a chunk in a sheet's tray: cycles, 1 if the cycles are cut and else 0, peak in slots, stack bytes, and the cycles with its callees. A tray of
 * the sheet needs PM_ROW times as much room as the module has chunks, PM_TRAY is enough for any; a tray of the call order needs one number a chunk.
 *
 * Cycles stop at 4,294,967,295. They are cut if the figure without that cap is greater. The cycles with the callees stop there too and have no mark. */
#define PM_ROW 5
#define PM_TRAY (PM_ROW * PM_CHUNKS)

/* The values of a stack walk: peak in slots, delta, stack bytes. */
#define PM_HEIGHT 3

/* The numbers of a chunk, of a constant and of an op in the lists that pm_write is lent. An extra is one number. */
#define PM_LENT_CHUNK 5
#define PM_LENT_CONSTANT 3
#define PM_LENT_OP 3

/* Set in the answer of pm_cycles where the row ends, and where the cycles are cut; the cycles are the 32 bits below. */
#define PM_ENDS ((uint64_t)1 << 32)
#define PM_CUT ((uint64_t)1 << 33)

/* The answers of pm_yields. */
#define PM_NO 0
#define PM_YES 1
#define PM_NEVER 2

/* Whether a packed value is a refusal. */
static inline int pm_is_refusal(uint64_t packed) { return packed >> 56 != 0; }

/* The number of a refusal, 1 to 16. */
static inline uint32_t pm_number(uint64_t refusal) { return (uint32_t)(refusal >> 56); }

/* The chunk of a refusal, modulo 2^24. */
static inline uint32_t pm_chunk(uint64_t refusal) { return (uint32_t)(refusal >> 32) & 0xffffff; }

/* The place of a refusal, modulo 2^32. */
static inline uint32_t pm_place(uint64_t refusal) { return (uint32_t)refusal; }

#ifdef __cplusplus
extern "C" {
#endif

/* The reader: how many chunks the module has. */
uint64_t pm_read(const uint32_t *words, size_t length);

/* The count of the loop at position p of chunk c. */
uint64_t pm_count(const uint32_t *words, size_t length, uint32_t c, uint32_t p);

/* The cycle walk of chunk c: its cycles, with PM_ENDS if its row ends and PM_CUT if the cycles are cut. */
uint64_t pm_cycles(const uint32_t *words, size_t length, uint32_t c);

/* Does every way through chunk c give up its turn, over a list by chunk index, 1 for a callee that always yields; any other number, and what is past the list's
 * end, is one that need not: PM_YES, PM_NO, or PM_NEVER, which says that no way reaches the end of its range. Where blocks of the range lie more than 256 deep
 * in one another, the answer is the original's, and a way may belie PM_YES and PM_NEVER. */
uint64_t pm_yields(const uint32_t *words, size_t length, uint32_t c, const uint32_t *list, size_t count);

/* The stack walk of chunk c over the callees' stack bytes by chunk index, 0 past the list's end: peak, delta (0 where the row ends) and bytes into out;
 * the answer is 1 where the row ends, else 0. */
uint64_t pm_stack(const uint32_t *words, size_t length, uint32_t c, const uint32_t *callees, size_t count, int64_t out[PM_HEIGHT]);

/* The call order into the tray: how many chunks stand there, callees first. What lies beyond them is left. */
uint64_t pm_order(const uint32_t *words, size_t length, uint32_t *tray, size_t room);

/* The module sheet into the tray, PM_ROW values a chunk by chunk index: how many chunks have their values there. What lies beyond them is left. */
uint64_t pm_sheet(const uint32_t *words, size_t length, uint32_t *tray, size_t room);

/* The writer: the words of a module into the tray, PM_WORDS of room being enough for any; how many words stand there. What lies beyond them is left.
 *
 * The module is lent in four lists, whose lengths are counted in numbers. A chunk is its locals, its type, and how many constants, ops and extras are its
 * own; a constant is 0 and the low and the high 32 bits of a two's complement integer, or 1, 0, 0 if it is no integer; an op is its kind, a and b. Chunk
 * after chunk takes its own from the fronts of the last three lists. The extras of 0 at a chunk's end are dropped, before anything is counted.
 *
 * Refusal 14 where the lists hold no module (a count reaches past its list, something is left over, a constant has neither form) or a part does not fit,
 * then 13 where the tray is shorter than the words: chunk 0, place 0. */
uint64_t pm_write(const uint32_t *chunks, size_t chunk_numbers, const uint32_t *constants, size_t constant_numbers, const uint32_t *ops, size_t op_numbers,
                  const uint32_t *extras, size_t extra_numbers, uint32_t *tray, size_t room);

#ifdef __cplusplus
}
#endif

#endif
