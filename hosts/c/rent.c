/* Rents out machine A of document 01 to one job, as ring {3,3,1}, then to a tenant that numbers its nodes from 0, loads a
 * program that names its memory, asks why a node serves or not, and empties a node so that its board can be pulled: prints
 * each answer.
 *
 *   (cd crates/spirerivet && rt lib)
 *   gcc -std=c11 hosts/c/rent.c crates/spirerivet/out/libspirerivet.a -o rent && ./rent | diff hosts/c/expected.txt -
 *
 * C++ compiles it too: g++ -x c++ in the place of gcc -std=c11, and -x none before the archive.
 */
#include <stdio.h>
#include <string.h>
#include "spirerivet.h"

enum { NODES = 4, CPUS = 8, PAGES = 6, JOBS = 2, RENTER = 0, TENANT = 1 };

static const uint32_t counts[NODES] = {2, 2, 0, 2};
static const uint8_t cpus[CPUS] = {0, 0, 1, 1, 2, 2, 3, 3};
static const uint8_t distances[NODES * NODES] = {
    10, 20, 20, 30,
    20, 10, 30, 20,
    20, 30, 10, 20,
    30, 20, 20, 10,
};
static uint8_t pages[PAGES];
static uint64_t jobs[JOBS * SPIRE_JOB_WORDS];
static uint32_t free_counts[NODES];
static uint8_t maps[JOBS * SPIRE_MAP_BYTES];
static const char names[] = "DRAM0\0SRAM\0FLASH\0DRAM1"; /* of each node; its own zero ends the last */

static struct spire_answer request(size_t job, size_t cpu)
{
    return spire_request(counts, NODES, cpus, CPUS, distances, sizeof distances, pages, PAGES,
                         jobs, JOBS * SPIRE_JOB_WORDS, free_counts, NODES, maps, sizeof maps, job, cpu);
}

static struct spire_answer release(size_t job, size_t page)
{
    return spire_release(counts, NODES, pages, PAGES, jobs, JOBS * SPIRE_JOB_WORDS, free_counts, NODES,
                         maps, sizeof maps, job, page);
}

/* A policy of places, by the job's own numbers, or none. */
static struct spire_answer install(size_t job, enum spire_mode mode, const uint8_t *places, size_t length)
{
    return spire_install(NODES, jobs, JOBS * SPIRE_JOB_WORDS, maps, sizeof maps, job, (uint64_t)mode, SPIRE_PLAIN, 0,
                         places, length);
}

static struct spire_answer ring(size_t job, const uint8_t *places, size_t length)
{
    return install(job, SPIRE_RING, places, length);
}

static struct spire_answer allow(size_t job, uint64_t nodes)
{
    return spire_rebind(NODES, jobs, JOBS * SPIRE_JOB_WORDS, job, nodes);
}

/* The administrator's call, by the machine's numbers, and the tenant's, by its own. */
static struct spire_answer set_map(size_t job, const uint8_t *list, size_t length)
{
    return spire_set_map(NODES, jobs, JOBS * SPIRE_JOB_WORDS, maps, sizeof maps, job, list, length);
}

static struct spire_answer keep(size_t job, const uint8_t *kept, size_t length)
{
    return spire_keep_nodes(NODES, jobs, JOBS * SPIRE_JOB_WORDS, maps, sizeof maps, job, kept, length);
}

/* What a host does about SPIRE_WRONG_COUNT while pages are in use. */
static void count_anew(void)
{
    size_t page = 0;
    for (size_t node = 0; node < NODES; node++) {
        free_counts[node] = 0;
        for (size_t end = page + counts[node]; page < end; page++)
            free_counts[node] += pages[page] == 0;
    }
}

static void show(const char *call, struct spire_answer a)
{
    if (a.refusal != SPIRE_DONE)
        printf("%s: refused %u\n", call, (unsigned)a.refusal);
    else if (a.page == SPIRE_NO_PAGE)
        printf("%s: done\n", call);
    else if (a.node == SPIRE_NO_NODE)
        printf("%s: page %u, on no node of its map\n", call, (unsigned)a.page);
    else
        printf("%s: node %u, page %u\n", call, (unsigned)a.node, (unsigned)a.page);
}

static void show_free(void)
{
    printf("free:");
    for (size_t node = 0; node < NODES; node++)
        printf(" %lu", (unsigned long)free_counts[node]);
    printf("\n");
}

/* For the support desk, by the machine's numbers: why the job's next page from the CPU would come from where it would. */
static void show_why(size_t job, size_t cpu)
{
    static const char *const words[] = {"?", "not allowed", "outside the bind set", "unreachable", "not named", "full",
                                        "chosen", "later"};
    uint8_t out[NODES];
    struct spire_number n =
        spire_reasons(counts, NODES, cpus, CPUS, distances, sizeof distances, pages, PAGES, jobs, JOBS * SPIRE_JOB_WORDS,
                      free_counts, NODES, maps, sizeof maps, job, cpu, out, sizeof out);

    if (n.refusal != SPIRE_DONE) {
        printf("why: refused %u\n", (unsigned)n.refusal);
        return;
    }
    printf("why:");
    for (size_t node = 0; node < n.value; node++)
        printf("%s %zu %s", node == 0 ? "" : ",", node, words[out[node] <= SPIRE_LATER ? out[node] : 0]);
    printf("\n");
}

/* Empties a node: every page that moved, from where to where. */
static void show_drain(size_t node)
{
    uint32_t moves[2 * PAGES];
    struct spire_number n =
        spire_drain(counts, NODES, distances, sizeof distances, pages, PAGES, jobs, JOBS * SPIRE_JOB_WORDS, free_counts,
                    NODES, maps, sizeof maps, node, moves, 2 * PAGES);

    if (n.refusal != SPIRE_DONE) {
        printf("drain %zu: refused %u\n", node, (unsigned)n.refusal);
        return;
    }
    printf("drain %zu: %lu pages", node, (unsigned long)n.value);
    for (size_t turn = 0; turn < n.value; turn++)
        printf(", %lu to %lu", (unsigned long)moves[2 * turn], (unsigned long)moves[2 * turn + 1]);
    printf("\n");
}

static void show_nodes(const char *text)
{
    uint8_t out[SPIRE_TEXT_BYTES];
    struct spire_number mask = spire_read_nodes(NODES, 0xF, (const uint8_t *)text, strlen(text));
    if (mask.refusal != SPIRE_DONE) {
        printf("nodes %s: refused %u\n", text, (unsigned)mask.refusal);
        return;
    }
    struct spire_number length = spire_write_nodes(NODES, mask.value, out, sizeof out);
    printf("nodes %s: mask %llu, written %.*s\n", text, (unsigned long long)mask.value, (int)length.value, (const char *)out);
}

static void show_near(size_t node)
{
    uint8_t out[NODES];
    struct spire_order order = spire_near(NODES, distances, sizeof distances, 0xF, node, out, sizeof out);
    if (order.refusal != SPIRE_DONE) {
        printf("near %zu: refused %u\n", node, (unsigned)order.refusal);
        return;
    }
    printf("near %zu:", node);
    for (size_t place = 0; place < order.nodes; place++)
        printf(" %u", (unsigned)out[place]);
    printf(", in %lu rounds\n", (unsigned long)order.rounds);
}

/* The names of a note, text before data, each a part of the note itself. */
static void show_names(const uint8_t *note, size_t length)
{
    struct spire_part part;

    printf("names:");
    for (size_t k = 0; (part = spire_name(note, length, k)).len != 0; k++)
        printf(" %.*s", (int)part.len, (const char *)note + part.start);
    printf("\n");
}

/* A job's policy becomes a list of a note, or the default where the note has none for it. */
static void go_by(size_t job, const uint8_t *note, size_t length, enum spire_list which)
{
    uint8_t places[SPIRE_PLACES];
    struct spire_number count =
        spire_note_places(NODES, jobs, JOBS * SPIRE_JOB_WORDS, maps, sizeof maps, (const uint8_t *)names, sizeof names,
                          note, length, job, (uint64_t)which, places, sizeof places);

    if (count.refusal != SPIRE_DONE) {
        printf("note: refused %u\n", (unsigned)count.refusal);
        return;
    }
    printf("note: %lu places", (unsigned long)count.value);
    for (size_t place = 0; place < count.value; place++)
        printf(" %u", (unsigned)places[place]);
    printf("\n");
    show("install", install(job, count.value == 0 ? SPIRE_DEFAULT : SPIRE_LIST, places, (size_t)count.value));
}

/* A job that numbers its nodes as the machine does. */
static void rent_all(void)
{
    static const uint8_t all[] = {0, 1, 2, 3}, places[] = {3, 3, 1};
    struct spire_answer a;

    show("map 0,1,2,3", set_map(RENTER, all, sizeof all));
    show("allow 0-3", allow(RENTER, 0xF));
    show("ring 3,3,1", ring(RENTER, places, sizeof places));
    show_why(RENTER, 0); /* Node 0 has room, and no place names it. */
    do {
        a = request(RENTER, 0);
        show("request", a);
    } while (a.refusal == SPIRE_DONE);
    show_why(RENTER, 0); /* Why refusal 8: none is chosen. */
    show_free();

    show("release 2", release(RENTER, 2));
    show("release 2", release(RENTER, 2));
    show("request", request(RENTER, 0));
    show("request", request(RENTER, CPUS));

    free_counts[3] = 1; /* Another hand on the counts: node 3 is full. */
    show_why(RENTER, 0);
    a = request(RENTER, 0);
    show("request", a);
    if (a.refusal == SPIRE_WRONG_COUNT)
        count_anew();
    show_free();
    show("request", request(RENTER, 0));
}

/* A tenant with nodes 3 and 0 of the machine, which are its nodes 0 and 1. */
static void rent_two(void)
{
    static const uint8_t two[] = {3, 0}, places[] = {1, 0}, first[] = {0}, second[] = {1};

    show("release 5", release(RENTER, 5));
    show("tenant: allow 0-3", allow(TENANT, 0xF));
    show("tenant: request", request(TENANT, 0)); /* Its map is all zeros still. */
    show("tenant: map 3,0", set_map(TENANT, two, sizeof two));
    show("tenant: ring 1,0", ring(TENANT, places, sizeof places));
    show("tenant: request", request(TENANT, 0));
    show("tenant: request", request(TENANT, 0));
    show("tenant: keep 0", keep(TENANT, first, sizeof first));
    show("tenant: keep 1", keep(TENANT, second, sizeof second));
    show("tenant: ring 1,0", ring(TENANT, places, sizeof places));
    show("tenant: request", request(TENANT, 0));
    show_why(TENANT, 0); /* Node 0 has room and is named, but the tenant has dropped it from its map. */
    show("tenant: release 1", release(TENANT, 1));
    show("tenant: release 5", release(TENANT, 5));
}

/* A program of the tenant, whose nodes are 0 and 1 of the machine now, names its memory: DRAM1 is outside the map. */
static void rent_named(void)
{
    static const char text[] = "SRAM\0ANY", data[] = "DRAM1\0SRAM";
    static const uint8_t two[] = {0, 1};
    uint8_t note[64];
    struct spire_number length = spire_write_note((const uint8_t *)text, sizeof text, (const uint8_t *)data, sizeof data,
                                                  note, sizeof note);

    printf("a note of %lu bytes\n", (unsigned long)length.value);
    show_names(note, (size_t)length.value);
    show("release 3", release(RENTER, 3));
    show("tenant: map 0,1", set_map(TENANT, two, sizeof two));
    go_by(TENANT, note, (size_t)length.value, SPIRE_TEXT);
    show("tenant: request", request(TENANT, 0));
    show_why(TENANT, 0); /* ANY: node 0 is named by no place, but the CPU reaches it. */
    show("tenant: request", request(TENANT, 0));
    go_by(TENANT, note, (size_t)length.value, SPIRE_DATA);
    go_by(TENANT, note, (size_t)length.value - 1, SPIRE_TEXT);
}

/* Node 1 has to go: no new page may come to it, its pages move, and then it is empty. */
static void pull_board(void)
{
    static const uint8_t two[] = {0, 3};

    show("allow 0,2-3", allow(RENTER, 0xD));
    show("tenant: allow 0,2-3", allow(TENANT, 0xD));
    show_drain(1); /* Node 0 has one free page, and the tenant's map no other node: so none moves. */
    show("tenant: map 0,3", set_map(TENANT, two, sizeof two));
    show_drain(1);
    show_drain(1); /* It is empty, and stays so. */
    show_free();
    show("tenant: release 5", release(TENANT, 5)); /* A page that moved is its job's, by its new number. */
}

int main(void)
{
    show("fresh", spire_fresh(counts, NODES, pages, PAGES, free_counts, NODES));
    show_free();
    rent_all();
    rent_two();
    rent_named();
    pull_board();
    show_nodes("!1-2");
    show_nodes("5-3");
    show_near(0);
    show_near(2);
    return 0;
}
