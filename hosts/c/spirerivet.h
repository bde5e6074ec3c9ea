/* Spirerivet for hosts in C and C++: link crates/spirerivet/out/libspirerivet.a (rt lib in crates/spirerivet).
 *
 * All tables belong to the caller and are lent for one call. A table is a pointer, then its number of ELEMENTS. The pointer
 * must be valid and not null, even for a length of 0; a table that a call may write must overlap no other.
 * A refused call leaves every table as it was.
 *
 *   counts       pages of each node; its length is N, the number of nodes, 1 to 64
 *   cpus         the node of each CPU, 1 to 256 bytes
 *   distances    N x N bytes, row by row: 10 on the diagonal, 255 for unreachable
 *   pages        a byte for each page, node 0's first: 0 free, j + 1 held by job j
 *   jobs         SPIRE_JOB_WORDS words for each of 1 to 64 jobs; all zero: a fresh job
 *   free_counts  the number of free pages of each node, N counts: spire_fresh makes them; request, release and drain keep
 *                them up
 *   maps         SPIRE_MAP_BYTES bytes for each job: 1 to 64 different nodes of the machine, then SPIRE_MAP_END to the end
 *   masks        bit n stands for node n
 *
 * A node has two numbers: a SYSTEM number, the machine's, and for each job an APPLICATION number, its place in the job's map,
 * from 0. A tenant names its nodes, and is told them, by application numbers; it never sees the machine's.
 */
#ifndef SPIRERIVET_H
#define SPIRERIVET_H

#include <stddef.h>
#include <stdint.h>

#ifdef __cplusplus
extern "C" {
#endif

#define SPIRE_JOB_WORDS 6
#define SPIRE_PLACES 16           /* most places in a list */
#define SPIRE_TEXT_BYTES 255      /* longest node list that is read */
#define SPIRE_CALL_WORDS 16       /* words of a call in a replay */
#define SPIRE_MAP_BYTES 64        /* bytes of a job's map */
#define SPIRE_MAP_END 0xFF        /* what stands after the last node of a map */
#define SPIRE_ANY 0xFF            /* as the last place in SPIRE_LIST: any node, nearest to the CPU first */
#define SPIRE_NOTE_HEAD 16        /* bytes of a note before its names */
#define SPIRE_NO_NODE 0xFF
#define SPIRE_NO_PAGE 0xFFFFFFFF

/* The number in `refusal`. */
enum spire_refusal {
    SPIRE_DONE = 0,
    SPIRE_BAD_TABLES = 1,         /* the machine's tables, or the number of job words, free counts or map bytes, are wrong */
    SPIRE_NO_SUCH_JOB = 2,
    SPIRE_NO_SUCH_CPU = 3,
    SPIRE_MALFORMED_RECORD = 4,   /* the job's six words are no record; clear makes them one */
    SPIRE_UNKNOWN_POLICY = 5,     /* no such mode or flag, or a flag that this mode does not take */
    SPIRE_DOES_NOT_FIT = 6,       /* the mask, the places or the node do not fit; also a number past the map's end */
    SPIRE_NOTHING_ALLOWED = 7,    /* the allowed set is empty */
    SPIRE_NO_ROOM = 8,            /* every node in the search order is counted 0: full, if the counts match */
    SPIRE_NOTHING_EFFECTIVE = 9,  /* the rebind would leave the job's mask empty */
    SPIRE_NOT_HELD = 10,          /* no such page, or not this job's */
    SPIRE_OUTPUT_TOO_SHORT = 11,  /* for what would be written; reasons need a byte for each node, a drain two numbers for each
                                   * page that moves */
    SPIRE_BAD_TEXT = 12,
    SPIRE_DAMAGED_JOURNAL = 13,   /* a replay's list of calls has an unknown kind or is cut short */
    SPIRE_WRONG_COUNT = 14,       /* a free count disagrees with the page table: a node counted above 0 has no free page (in
                                   * a request and in its reasons), or a release would count more free pages than its node
                                   * has; a drain looks at every node's count. Count the free pages of each node anew, or
                                   * call spire_fresh when no page is in use */
    SPIRE_BAD_MAP = 15,           /* the job's map is none: empty, a node twice, a node that the machine does not have, or one
                                   * after an SPIRE_MAP_END; set it anew by spire_set_map. Or the list of spire_keep_nodes or
                                   * spire_set_map is no good one */
    SPIRE_BAD_NOTE = 16,          /* the note is none: its counts and sizes do not fit its bytes exactly, or a list of names
                                   * is bad: over 16 names, one of no byte, of over 15, `text`, `data` or `any`, or `ANY`
                                   * before the last. Or a list of spire_write_note is such a one */
    SPIRE_NOWHERE_TO_GO = 17      /* a page of the node that is drained: its job may use no other node that can be reached and
                                   * has room, or its byte names no job, or the job's record or map is none. Let the job use
                                   * more nodes, make room or release the page; then drain again */
};

enum spire_mode {
    SPIRE_DEFAULT = 0,
    SPIRE_PREFERRED = 1,
    SPIRE_BIND = 2,
    SPIRE_INTERLEAVE = 3,
    SPIRE_LIST = 4,
    SPIRE_RING = 5,
    SPIRE_EARLY = 6
};

enum spire_list { SPIRE_TEXT = 0, SPIRE_DATA = 1 };

enum spire_flag { SPIRE_PLAIN = 0, SPIRE_STATIC = 1, SPIRE_RELATIVE = 2 };

/* Why a node would serve a request, or not: the first that fits. */
enum spire_reason {
    SPIRE_NOT_ALLOWED = 1,        /* to the job; or outside its map */
    SPIRE_OUTSIDE_BIND = 2,       /* of a bind mask; a static one of which nothing is left is none */
    SPIRE_UNREACHABLE = 3,        /* modes 0 to 3: at distance 255 from the node that the search begins at */
    SPIRE_NOT_NAMED = 4,          /* modes 4 to 6: by any place; under a closing SPIRE_ANY nor reachable from the CPU's node */
    SPIRE_FULL = 5,               /* counted 0 */
    SPIRE_CHOSEN = 6,             /* the page would come from here */
    SPIRE_LATER = 7               /* had room, but its turn came after the chosen one's */
};

/* An answer; the node by its application number. Where there is no node and no page: SPIRE_NO_NODE, SPIRE_NO_PAGE. */
struct spire_answer {
    uint8_t refusal;
    uint8_t node;
    uint32_t page;
};

/* A number; 0 on a refusal. */
struct spire_number {
    uint8_t refusal;
    uint64_t value;
};

/* A part of the caller's own bytes: where it starts in them, and its length; 0 and 0 for an empty part. */
struct spire_part {
    size_t start, len;
};

/* near(x) as listed: how many nodes, and in how many rounds of its loops; 0 and 0 on a refusal. */
struct spire_order {
    uint8_t refusal;
    uint8_t nodes;
    uint32_t rounds;
};

/* A page for a job that runs on a CPU: its node and its number. Only allowed nodes that are in the job's map are tried; those
 * counted 0 are passed over. In the node that serves, it is the lowest free page whose offset in the node, mod 4, is the job's
 * number mod 4; if there is none, the lowest free page. Writes pages, jobs and free_counts. Refusals 1, 2, 15, 3, 4, 14, 8. */
struct spire_answer spire_request(const uint32_t *counts, size_t nodes, const uint8_t *cpus, size_t cpu_count,
                                  const uint8_t *distances, size_t distance_count, uint8_t *pages, size_t page_count,
                                  uint64_t *jobs, size_t job_words, uint32_t *free_counts, size_t free_len,
                                  const uint8_t *maps, size_t map_bytes, size_t job, size_t cpu);

/* A page given back by the job that holds it: its node, SPIRE_NO_NODE if that is outside the job's map, and its number.
 * Writes pages and free_counts. Refusals 1, 2, 15, 10, 14. */
struct spire_answer spire_release(const uint32_t *counts, size_t nodes, uint8_t *pages, size_t page_count,
                                  const uint64_t *jobs, size_t job_words, uint32_t *free_counts, size_t free_len,
                                  const uint8_t *maps, size_t map_bytes, size_t job, size_t page);

/* Every page of the machine made free, and counted: what a host begins with. Writes pages, none past the last one, and
 * free_counts. Refusal 1. */
struct spire_answer spire_fresh(const uint32_t *counts, size_t nodes, uint8_t *pages, size_t page_count,
                                uint32_t *free_counts, size_t free_len);

/* A node, by its system number, emptied before its board is pulled: how many pages moved. Each held page of it, from the
 * lowest up, goes to the nearest node with room that its job may use and has in its map, other than this one; nearest by this
 * node's row of distances. There it gets the page that a request of the job would get. Old and new number of each page stand
 * at the start of moves, in the order moved: two numbers each, so twice the node's pages are always enough. All is worked out
 * before anything is written: if one page has nowhere to go, none moves. Writes pages, free_counts and that many numbers of
 * moves; records, with their cursors, stay. Refusals 1, 6, 14, 17, 11. */
struct spire_number spire_drain(const uint32_t *counts, size_t nodes, const uint8_t *distances, size_t distance_count,
                                uint8_t *pages, size_t page_count, const uint64_t *jobs, size_t job_words,
                                uint32_t *free_counts, size_t free_len, const uint8_t *maps, size_t map_bytes,
                                size_t node, uint32_t *moves, size_t moves_len);

/* Why a request of the job from the CPU would be served where it would be: a byte of enum spire_reason for each node of the
 * machine, by system numbers, at the start of out; N. One node is SPIRE_CHOSEN if the request would be granted, none if it
 * would be refused 8, which is no refusal here. Each reason is true of the search order if the free counts match the pages.
 * Writes N bytes of out; 64 are always enough. Refusals 1, 2, 15, 3, 4, 11, 14. */
struct spire_number spire_reasons(const uint32_t *counts, size_t nodes, const uint8_t *cpus, size_t cpu_count,
                                  const uint8_t *distances, size_t distance_count, const uint8_t *pages, size_t page_count,
                                  const uint64_t *jobs, size_t job_words, const uint32_t *free_counts, size_t free_len,
                                  const uint8_t *maps, size_t map_bytes, size_t job, size_t cpu,
                                  uint8_t *out, size_t out_bytes);

/* A job's policy: a mask (modes 1 to 3) or places, a node each (modes 4 to 6), by application numbers; a relative mask has
 * ranks. The record gets system numbers. In mode SPIRE_LIST the last place may be SPIRE_ANY, which the record keeps as it is:
 * there a request goes on with near(the CPU's node). Writes jobs. Refusals 1, 2, 15, 4, 5, 7, 6. */
struct spire_answer spire_install(size_t nodes, uint64_t *jobs, size_t job_words, const uint8_t *maps, size_t map_bytes,
                                  size_t job, uint64_t mode, uint64_t flag, uint64_t mask,
                                  const uint8_t *places, size_t place_count);

/* The tenant's call: its job keeps these nodes of its map, by application numbers, one or more, rising, and drops the others.
 * They are numbered from 0 again, in the same order. Writes maps. Refusals 1, 2, 15. */
struct spire_answer spire_keep_nodes(size_t nodes, const uint64_t *jobs, size_t job_words, uint8_t *maps, size_t map_bytes,
                                     size_t job, const uint8_t *kept, size_t kept_count);

/* The administrator's call: a map for a job, whatever it had: 1 to 64 different nodes by system numbers, without
 * SPIRE_MAP_END. Writes maps. Refusals 1, 2, 15. */
struct spire_answer spire_set_map(size_t nodes, const uint64_t *jobs, size_t job_words, uint8_t *maps, size_t map_bytes,
                                  size_t job, const uint8_t *list, size_t list_count);

/* The k-th name of a .memtypes note, k from 0 and text before data, as that part of the note itself, without its zero; an
 * empty part if the note is bad or has no such name. A note is what stands in the section from the four counts onward, 32
 * bits each, lowest byte first: how many text names, their bytes, how many data names, their bytes; then the names, text
 * first, a zero after each, which their bytes count. */
struct spire_part spire_name(const uint8_t *note, size_t note_bytes, size_t k);

/* A list of a note, SPIRE_TEXT or SPIRE_DATA, as places for spire_install in mode SPIRE_LIST, by the job's application
 * numbers: how many. `names` has a name for each node of the machine, node 0's first, 1 to 15 bytes and a zero each, none of
 * them `ANY`, `text`, `data` or `any`; the first node of a name counts. `ANY`, the last of its list, becomes SPIRE_ANY. 0
 * places: the list is empty, or names a node that is not there or not in the job's map, and the job shall go by
 * SPIRE_DEFAULT. Installs nothing. Writes that many bytes of out; SPIRE_PLACES are always enough. Refusals 1, 2, 15, 16, 11. */
struct spire_number spire_note_places(size_t nodes, const uint64_t *jobs, size_t job_words,
                                      const uint8_t *maps, size_t map_bytes, const uint8_t *names, size_t name_bytes,
                                      const uint8_t *note, size_t note_bytes, size_t job, uint64_t which,
                                      uint8_t *out, size_t out_count);

/* The note of a text and a data list, each of up to 16 names with a zero after each: its length, SPIRE_NOTE_HEAD and the
 * bytes of both. Writes that many bytes of out. Refusals 16, 11. */
struct spire_number spire_write_note(const uint8_t *text, size_t text_bytes, const uint8_t *data, size_t data_bytes,
                                     uint8_t *out, size_t out_bytes);

/* A job's allowed nodes, by system numbers; the first call for a fresh job. Writes jobs. Refusals 1, 2, 4, 6, 7, 9. */
struct spire_answer spire_rebind(size_t nodes, uint64_t *jobs, size_t job_words, size_t job, uint64_t allowed);

/* A job made fresh; the pages that it holds stay held, and its map stays. Writes jobs. Refusals 1, 2. */
struct spire_answer spire_clear(size_t nodes, uint64_t *jobs, size_t job_words, size_t job);

/* The mask of a node list such as `0-3,6`, `!4-5`, `+0-1` (ranks in `allowed`) or `all`. Refusals 1, 6, 12. */
struct spire_number spire_read_nodes(size_t nodes, uint64_t allowed, const uint8_t *text, size_t text_bytes);

/* The node list of a mask, with no zero byte at its end: its length. Writes that many bytes of out. Refusals 1, 6, 11. */
struct spire_number spire_write_nodes(size_t nodes, uint64_t mask, uint8_t *out, size_t out_bytes);

/* near(x), x being `node`, over a set of nodes, all by system numbers: x first if it is in the set, then the others of the set
 * at a distance below 255 in row x, nearer first, the lower number first when equal. Writes a byte for each of these nodes at
 * the start of out; 64 bytes are always enough. Takes a round for each node of the machine, then one for each node listed
 * other than x: at most 127. Refusals 1, 6, 11. */
struct spire_order spire_near(size_t nodes, const uint8_t *distances, size_t distance_count, uint64_t set, size_t node,
                              uint8_t *out, size_t out_bytes);

/* A list of calls, one after the other: how many. A call is SPIRE_CALL_WORDS words: kind (1 request, 2 release, 3 rebind,
 * 4 install, 5 clear, 16 fresh, 17 keep nodes, 18 set map, 19 drain); job, or the node to drain; CPU, page, allowed mask, mode,
 * or a drain's room in 32-bit numbers; flag; user mask; number of places or nodes; two words unused; then the first 64 places
 * or nodes, one byte each, lowest byte first. Any number may be said, those past the 64th are zero: over SPIRE_PLACES places
 * the install is refused in its own order, as in spire_install, over 64 nodes a keep or a set likewise. A fresh has its kind
 * alone. An answer is one word: refusal in bits 0-7, node in 8-15, page in 32-63; a drain that was made has SPIRE_NO_NODE, and
 * in 32-63 how many pages moved: its pairs are not handed out. Writes pages, jobs, free_counts, maps and an answer for each
 * call. Refusals, then with no call run: 1; 13 (an unknown kind, or call_words no multiple of SPIRE_CALL_WORDS); 11 (fewer
 * answers than calls). */
struct spire_number spire_replay(const uint32_t *counts, size_t nodes, const uint8_t *cpus, size_t cpu_count,
                                 const uint8_t *distances, size_t distance_count, uint8_t *pages, size_t page_count,
                                 uint64_t *jobs, size_t job_words, uint32_t *free_counts, size_t free_len,
                                 uint8_t *maps, size_t map_bytes,
                                 const uint64_t *calls, size_t call_words, uint64_t *answers, size_t answer_count);

/* A whole journal, machine record first: the length of its answers, 12 bytes each. Writes that many bytes of output. Refusal
 * 11, exactly when output is shorter than that; 12 bytes for each 32 of the input, and 12 more, are always enough. */
struct spire_number spire_journal(const uint8_t *input, size_t input_bytes, uint8_t *output, size_t output_bytes);

#ifdef __cplusplus
}
#endif

#endif
