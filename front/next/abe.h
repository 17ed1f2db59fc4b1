/* The query engine for C and C++, on x86-64 Linux. `docs/FORMATS.md` has the formats of data, question and plan, byte by
 * byte, and each number in words. From the repository's root:
 *
 *     (cd crates/capi && rt lib)
 *     cc -std=c99 -Ifront/next -o demo front/next/c/demo.c crates/capi/out/libcapi.a
 *
 * The first line proves the engine and writes the archive, the second builds a program over it. Of other libraries the
 * archive uses memcpy and memset of the C library alone. `front/next/run` runs both lines; it also writes target/abe.pc from
 * front/next/abe.pc.in, and with that in PKG_CONFIG_PATH the second line may be
 *
 *     cc -std=c99 -o demo front/next/c/demo.c $(pkg-config --cflags --libs abe)
 *
 * Each slice is passed as a pointer and its length in elements (not bytes). The pointer is aligned for its type and has
 * that many readable elements; a buffer that is not const is writable and overlaps no other argument. Nothing else is
 * asked: for all bytes, words, lengths and budgets the calls end and answer with one of the numbers below. They keep no
 * state, allocate nothing and may run at once on buffers of their own.
 *
 * NULL. Where the length is 0 the pointer may be NULL, and the call answers as of any empty slice: abe_run by number 3 for
 * words, 5 for question, 11 for plan, 1 for sets, files, indexes and figures, 2 for result, where no lower one applies;
 * abe_index by 3 for words, and for out by 2, or by 0 where the table has no rows; abe_chart by 2. Nothing is read or
 * written through it. Proved are the answers by the lengths of slices; a proof knows no pointer that is NULL. That NULL
 * does as well is tested: `front/next/run` tries it on the archive for every choice of the eight slices of abe_run, and for
 * those of the other two. A pointer that is NULL with a length over 0 is an error of the caller's, of which nothing is
 * promised.
 *
 * The numbers, codes, lengths and calls are those of include/abe.h; where its first lines say that a pointer is never NULL,
 * the above stands in their place. */
#include "../../include/abe.h"
