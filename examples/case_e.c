/* Plans case E, writes its archive, lists the pages off the archive's bytes, reads it back,
 * converts it to edition 2 and back, prints the first lines of its leader sheet, and prices it.
 *
 *   gcc -std=c11 -Wall -Wextra -Werror -Iinclude examples/case_e.c -o case_e LIB/libembed.a
 *
 * examples/case_e.out is what it prints. It exits with 1 if anything is not as it should be.
 */
#include <stdbool.h>
#include <stdio.h>
#include <string.h>

#include "balduqen.h"

enum { NODES = 6, LIMIT = 5 };
enum { TABLE = BALDUQEN_TABLE_LENGTH(NODES), SCRATCH = BALDUQEN_SCRATCH_LENGTH(NODES, LIMIT) };
/* Every plan fits, since none has more pages than nodes. */
enum { MOST_ARCHIVE = BALDUQEN_ARCHIVE_LENGTH(NODES, NODES) };
enum { MOST_ARCHIVE2 = BALDUQEN_ARCHIVE2_LENGTH(NODES, NODES) };
enum { MOST_SHEETS = BALDUQEN_SHEETS_LENGTH(NODES), LINE = 81 };

/* N and K, then weight, label, first child and next sibling of each node. */
static const uint8_t table[TABLE] = {
    0, 6, 0, 5,
    0, 5, 0, 1, 0, 2, 0, 0,
    0, 2, 0, 2, 0, 0, 0, 3,
    0, 1, 0, 3, 0, 4, 0, 6,
    0, 2, 0, 4, 0, 0, 0, 5,
    0, 2, 0, 5, 0, 0, 0, 0,
    0, 1, 0, 6, 0, 0, 0, 0,
};

/* A word of the archive, by its index. */
static unsigned word(const uint8_t *archive, size_t index)
{
    return archive[2 * index] * 256u + archive[2 * index + 1];
}

static bool accepted(const char *step, uint32_t number, uint32_t place)
{
    if (number != BALDUQEN_ACCEPTED)
        printf("%s: refused %u at %u\n", step, (unsigned)number, (unsigned)place);
    return number == BALDUQEN_ACCEPTED;
}

static bool same_verdict(const char *step, balduqen_answer planned, unsigned pages, unsigned root)
{
    bool same = planned.pages == pages && planned.root == root;
    if (!same)
        printf("%s: pages %u root %u\n", step, pages, root);
    return same;
}

/* N, K and P, then first node, last sibling, weight and next page of each page. */
static void list_pages(const uint8_t *archive)
{
    printf("pages %u root %u limit %u\n", word(archive, 2), word(archive, 5), word(archive, 1));
    for (unsigned page = 1; page <= word(archive, 2); page++) {
        size_t record = 3 + 4 * (page - 1);
        printf("page %u first %u last %u weight %u\n", page, word(archive, record),
               word(archive, record + 1), word(archive, record + 2));
    }
}

static bool same_bytes(const char *name, const uint8_t *one, const uint8_t *other, size_t length)
{
    bool same = memcmp(one, other, length) == 0;
    printf("%s back: %s\n", name, same ? "same" : "different");
    return same;
}

/* Whether the archive reads back as the tree and plan it was written from. */
static bool read_back(const uint8_t *archive, size_t length, const uint8_t *marks,
                      balduqen_answer planned)
{
    uint8_t table_back[TABLE] = {0};
    uint8_t marks_back[NODES] = {0};
    balduqen_answer read =
        balduqen_read_archive(archive, length, table_back, TABLE, marks_back, NODES);
    if (!accepted("read", read.number, read.place))
        return false;
    bool same_table = same_bytes("table read", table, table_back, TABLE);
    bool same_marks = same_bytes("marks read", marks, marks_back, NODES);
    return same_table && same_marks && same_verdict("read", planned, read.pages, read.root);
}

/* Whether the archive is the same after a turn through edition 2, whose page records have a fifth
 * word. */
static bool convert(const uint8_t *archive, size_t length, balduqen_answer planned)
{
    uint8_t second[MOST_ARCHIVE2] = {0};
    uint8_t first[MOST_ARCHIVE] = {0};
    size_t second_length = BALDUQEN_ARCHIVE2_LENGTH(planned.pages, NODES);
    balduqen_answer there = balduqen_convert_to_2(archive, length, second, second_length);
    if (!accepted("convert", there.number, there.place) ||
        !same_verdict("convert", planned, there.pages, there.root))
        return false;
    printf("edition 2 begins with %u, nodes of each page:", word(second, 0));
    for (unsigned page = 1; page <= there.pages; page++)
        printf(" %u", word(second, 4 + 5 * (page - 1) + 4));
    printf("\n");
    balduqen_answer back = balduqen_convert_to_1(second, second_length, first, length);
    return accepted("convert back", back.number, back.place) &&
           same_bytes("archive converted", archive, first, length);
}

/* The leader sheet's line 1 and the lines of its pages; a plan of so few pages has one sheet. */
static bool print_sheet(const uint8_t *marks, balduqen_answer planned)
{
    uint8_t sheets[MOST_SHEETS] = {0};
    size_t length = BALDUQEN_SHEETS_LENGTH(planned.pages);
    balduqen_answer printed = balduqen_print_sheets(table, TABLE, marks, NODES, sheets, length);
    if (!accepted("print", printed.number, printed.place) ||
        !same_verdict("print", planned, printed.pages, printed.root))
        return false;
    fwrite(sheets, LINE, 1 + planned.pages, stdout);
    return true;
}

/* What the plan costs, and what it saves against the plan that cuts single branches. The saving
 * leaves the best plan in the marks, which is this one again. */
static bool price(const uint8_t *marks, balduqen_answer planned)
{
    uint8_t best[NODES] = {0};
    uint32_t scratch[SCRATCH] = {0};
    balduqen_price_answer priced = balduqen_price(table, TABLE, marks, NODES);
    balduqen_saving_answer saved = balduqen_saving(table, TABLE, best, NODES, scratch, SCRATCH);
    if (!accepted("price", priced.number, priced.place) ||
        !accepted("saving", saved.number, saved.place) ||
        !same_verdict("price", planned, priced.pages, priced.root) ||
        !same_verdict("saving", planned, saved.pages, saved.root))
        return false;
    printf("price %u saving %d\n", (unsigned)priced.cents, (int)saved.saving);
    return memcmp(marks, best, NODES) == 0;
}

static bool run(void)
{
    uint8_t marks[NODES] = {0};
    uint32_t scratch[SCRATCH] = {0};
    balduqen_answer planned = balduqen_plan_best(table, TABLE, marks, NODES, scratch, SCRATCH);
    if (!accepted("plan", planned.number, planned.place))
        return false;

    uint8_t archive[MOST_ARCHIVE] = {0};
    size_t length = BALDUQEN_ARCHIVE_LENGTH(planned.pages, NODES);
    balduqen_answer written = balduqen_write_archive(table, TABLE, marks, NODES, archive, length);
    if (!accepted("write", written.number, written.place) ||
        !same_verdict("write", planned, written.pages, written.root) ||
        !same_verdict("archive", planned, word(archive, 2), word(archive, 5)))
        return false;

    list_pages(archive);
    return read_back(archive, length, marks, planned) && convert(archive, length, planned) &&
           print_sheet(marks, planned) && price(marks, planned);
}

int main(void)
{
    return run() ? 0 : 1;
}
