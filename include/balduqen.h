/* libembed.a: reads tree tables, plans how a tree is laid on pages, judges plans, writes and reads
 * the archive in two editions, converts film of one to the other, prints plans as leader sheets,
 * and prices plans.
 *
 * What a caller must see to. A buffer is lent as a pointer and a length. The pointer is valid for
 * that many elements, aligned for them, and not null, also where the length is 0. A buffer that a
 * function fills overlaps no other buffer of the call. Of what the buffers hold, and of their
 * lengths, nothing is asked: what is not right is refused, and on refusal each buffer keeps what it
 * held.
 *
 * A function reads and writes nothing but what it is lent. It allocates nothing, keeps nothing
 * between calls, and ends. So any number of threads may call at the same time, each on buffers of
 * its own; a buffer that is only read may be shared.
 *
 * The table. Its words are 16 bits, high byte first. For a tree of N nodes and a page limit K:
 *
 *   word 0         N, 1 to 2048
 *   word 1         K, 1 to 1024
 *   then for each node, from node 1 on, a record of four words:
 *                  weight (0 to 65535; 0 is a note, kept on the margin of the film), label (1 to
 *                  65535; 0 is a lot that nobody has filed, which only older film has), first
 *                  child, next sibling
 *
 * Nodes are numbered from 1, and 0 stands for no node. Node 1 is the root and has no sibling. The
 * children of a node are a chain: the first child, its next sibling, and so on until a 0. The order
 * of nodes is child before sibling: a walk that goes from each node to its first child, with all
 * below it, and then to its next sibling meets 1, 2, .., N. So a table has 4 + 8 * N bytes.
 *
 * A plan has N marks of a byte each, for the nodes in their order: 0 (stays with its parent), 1
 * (begins a run) or 2 (continues the run of the sibling just before). Each run is a page.
 *
 * The archive of a tree and a plan of P pages has two editions, both in words as the table's:
 *
 *   head           N, K, P; in edition 2 the word 8194, then N, K, P
 *   then for each page, by its first node, a record of four words, in edition 2 of five:
 *                  first node, last sibling of its run, weight, next page (0 in the last); in
 *                  edition 2 also the number of nodes on the page
 *   then for each node a record of four words:
 *                  weight, label, parent (0 for node 1), next node of the same page (0 in its last)
 *
 * The first edition takes up to 1024 nodes and has 6 + 8 * P + 8 * N bytes; edition 2 takes as many
 * as a table and has 8 + 10 * P + 8 * N. The first word tells them apart, so that no archive is of
 * both. docs/RULE-SHEET.txt tells them byte by byte, with examples.
 *
 * The leader sheets of a plan of P pages have 58 pages each, the last one up to 58. A sheet is 60
 * lines, and a line 80 columns and a newline (byte 10), so a sheet has 4860 bytes:
 *
 *   line 1         PAGES in columns 1 to 5, and P in 7 to 12: on every sheet that of the plan
 *   lines 2 to 59  a page each: its number in columns 1 to 6, its first node in 7 to 12, its last
 *                  sibling in 13 to 18, its weight in 19 to 24, and the whole per cent that this is
 *                  of K, rounded down, in 25 to 28
 *   line 60        the number of the sheet, from 1, in columns 1 to 6
 *
 * Numbers are decimal, without zeros in front, and end in the last of their columns. All else is
 * blanks (byte 32), and so are the lines after the last page. examples/case_e.sheet is one.
 *
 * The price of a plan is the film maker's for all its pages. A page costs by its fill: 15 * weight
 * / K, rounded down, which is 15 only where the page weighs K. For the fills 0 to 15, in cents:
 *
 *   410 405 398 390 380 368 355 340 324 306 287 266 244 221 196 90
 *
 * Fewest pages is not lowest price, and no planner seeks the lowest. With a root of weight 2, two
 * children of weight 1 and K 3, balduqen_plan_best lays 2 on each of its two pages, which cost 574;
 * balduqen_plan_single has as many pages, which weigh 3 and 1 and cost 458.
 */
#ifndef BALDUQEN_H
#define BALDUQEN_H

#include <stddef.h>
#include <stdint.h>

#ifdef __cplusplus
extern "C" {
#endif

/* The version of CHANGELOG.md. Each request that lands adds one to its middle number. */
#define BALDUQEN_VERSION "0.8.0"

/* The most nodes of a table, and the highest page limit. */
#define BALDUQEN_MAX_NODES 2048
#define BALDUQEN_MAX_LIMIT 1024

/* The most nodes of the archive's first edition, which film decks size their memory by. Edition 2
 * takes as many as a table. */
#define BALDUQEN_ARCHIVE_NODES 1024

/* The bytes of stack that a call uses at most, on x86-64. As measured: balduqen_convert_to_1 and
 * balduqen_read_archive2 95 KiB, balduqen_plan_best, balduqen_plan_level and balduqen_saving 71,
 * balduqen_convert_to_2 and balduqen_read_archive 66, the other planners 49, the archive's writers
 * 41, balduqen_print_sheets, balduqen_price and the judge 29, balduqen_read_tree 5. */
#define BALDUQEN_STACK 98304

/* Buffer lengths: bytes of a table, 32-bit words of a planner's scratch, bytes of an archive of the
 * first edition and of edition 2, and of leader sheets. */
#define BALDUQEN_TABLE_LENGTH(nodes) (4 + 8 * (size_t)(nodes))
#define BALDUQEN_SCRATCH_LENGTH(nodes, limit) (4 * (size_t)(nodes) * ((size_t)(limit) + 3))
#define BALDUQEN_ARCHIVE_LENGTH(pages, nodes) (6 + 8 * (size_t)(pages) + 8 * (size_t)(nodes))
#define BALDUQEN_ARCHIVE2_LENGTH(pages, nodes) (8 + 10 * (size_t)(pages) + 8 * (size_t)(nodes))
#define BALDUQEN_SHEETS_LENGTH(pages) (4860 * (((size_t)(pages) + 57) / 58))

/* Number 0 and place 0 are acceptance. Any other number is a refusal:
 *
 *   no.  condition                                           place
 *    1   the table is under 4 bytes                          0
 *    2   N is 0 or over 2048                                 N
 *    3   K is 0 or over 1024                                 K
 *    4   the table's length is not 4 + 8 * N                 the right length
 *    6   the walk from node 1 does not meet 1, 2, .., N      nodes met in order; 0 if node 1 has a
 *                                                            sibling
 *    7   a node outweighs K                                  first such node
 *    8   the marks are not N                                 N
 *    9   the scratch is under 4 * N * (K + 3) words          that number
 *   10   a mark is not allowed                               first such node
 *   11   a page weighs over K                                first such page
 *   12   an output buffer has the wrong length               the right length
 *   13   no tree and plan write this archive in the edition  0
 *        asked for; in the first, also if labels may be 0
 *   14   a label is 0: a lot that nobody has filed           first such node
 *   15   the tree has more nodes than the first edition      N
 *        takes
 *
 * The lowest that applies is given, with 14 before 6 and 15 before 12; but the readers of archives
 * check 13, then 12, then 8, balduqen_convert_to_2 checks 13, then 14, then 12, and
 * balduqen_convert_to_1 13, then 15, then 12. Number 5 is retired and never given: it was for a
 * weight of 0, which is allowed now.
 */
enum {
    BALDUQEN_ACCEPTED = 0,
    BALDUQEN_SHORT_TABLE = 1,
    BALDUQEN_BAD_COUNT = 2,
    BALDUQEN_BAD_LIMIT = 3,
    BALDUQEN_BAD_LENGTH = 4,
    BALDUQEN_BAD_WALK = 6,
    BALDUQEN_HEAVY_NODE = 7,
    BALDUQEN_BAD_MARKS = 8,
    BALDUQEN_SHORT_SCRATCH = 9,
    BALDUQEN_BAD_MARK = 10,
    BALDUQEN_HEAVY_PAGE = 11,
    BALDUQEN_BAD_OUTPUT = 12,
    BALDUQEN_NO_ARCHIVE = 13,
    BALDUQEN_NO_LABEL = 14,
    BALDUQEN_MANY_NODES = 15
};

/* Pages and root are the plan's page count and the weight of its root page. They are 0 unless
 * number is 0, and always 0 from balduqen_read_tree, which has no plan.
 */
typedef struct {
    uint32_t number, place, pages, root;
} balduqen_answer;

/* What a plan costs, in cents: 0 unless number is 0. The words before are that plan's, as in
 * balduqen_answer. */
typedef struct {
    uint32_t number, place, pages, root, cents;
} balduqen_price_answer;

/* What the best plan costs less than the single planner's, in cents: below 0 where it costs more,
 * and 0 unless number is 0. The words before are the best plan's, as in balduqen_answer. */
typedef struct {
    uint32_t number, place, pages, root;
    int32_t saving;
} balduqen_saving_answer;

/* Whether the table holds a tree that can be planned. Refuses 1 to 4, 6, 7 and 14; 7 means that no
 * plan at all holds the tree. */
balduqen_answer balduqen_read_tree(const uint8_t *table, size_t table_length);

/* Whether the marks are a plan of the tree with no page over the limit. Refuses 1 to 4, 6 to 8, 10,
 * 11 and 14. */
balduqen_answer balduqen_judge(const uint8_t *table, size_t table_length,
                               const uint8_t *marks, size_t marks_length);

/* The planners fill the N marks with a plan that the judge accepts, and leave every scratch word 0.
 * What either holds before is of no matter. The scratch has at least 4 * N * (K + 3) words. They
 * refuse 1 to 4, 6 to 9 and 14, and nothing else: a tree that can be planned gets its plan. */

/* The fewest pages of all plans and, with as many, the lightest root page. */
balduqen_answer balduqen_plan_best(const uint8_t *table, size_t table_length,
                                   uint8_t *marks, size_t marks_length,
                                   uint32_t *scratch, size_t scratch_length);

/* As best, but each branch keeps its own best plan. */
balduqen_answer balduqen_plan_level(const uint8_t *table, size_t table_length,
                                    uint8_t *marks, size_t marks_length,
                                    uint32_t *scratch, size_t scratch_length);

/* Cuts the heaviest child, as a run by itself, until the rest fits. */
balduqen_answer balduqen_plan_single(const uint8_t *table, size_t table_length,
                                     uint8_t *marks, size_t marks_length,
                                     uint32_t *scratch, size_t scratch_length);

/* The same on the tree of first children and next siblings, so that runs can be longer. */
balduqen_answer balduqen_plan_pair(const uint8_t *table, size_t table_length,
                                   uint8_t *marks, size_t marks_length,
                                   uint32_t *scratch, size_t scratch_length);

/* The next two are quick: their steps are linear in the nodes, beside the clearing of the scratch.
 * Their pages are never fewer than balduqen_plan_best's. */

/* Cuts runs of last children, each as long as a page holds, until the rest fits. */
balduqen_answer balduqen_plan_rightmost(const uint8_t *table, size_t table_length,
                                        uint8_t *marks, size_t marks_length,
                                        uint32_t *scratch, size_t scratch_length);

/* Goes through the nodes in their order, and lays each on the page begun last where it fits and its
 * parent or its previous sibling is there; else it begins a page. */
balduqen_answer balduqen_plan_depth_first(const uint8_t *table, size_t table_length,
                                          uint8_t *marks, size_t marks_length,
                                          uint32_t *scratch, size_t scratch_length);

/* Writes the archive of a tree of up to 1024 nodes and a plan, in its first edition. The archive
 * buffer has exactly 6 + 8 * P + 8 * N bytes, where P is the page count that the planner or the
 * judge gave. Refuses 1 to 4, 6 to 8, 10 to 12, 14 and 15; a longer tree gets 15 with any plan that
 * the judge accepts, however long the buffer is. With the marks of balduqen_plan_best, page count
 * and root weight on film are that planner's. */
balduqen_answer balduqen_write_archive(const uint8_t *table, size_t table_length,
                                       const uint8_t *marks, size_t marks_length,
                                       uint8_t *archive, size_t archive_length);

/* Reads the tree and the plan back from an archive of the first edition: the very table and marks
 * that it was written from. The table buffer has exactly 4 + 8 * N bytes and the marks buffer N.
 * Refuses 13, also where N is over 1024, 12 for the table buffer, then 8 for the marks buffer. Film
 * from before 14 was refused may have labels 0, and is read like any other; what is read then
 * cannot be planned, judged or written again: 14. */
balduqen_answer balduqen_read_archive(const uint8_t *archive, size_t archive_length,
                                      uint8_t *table, size_t table_length,
                                      uint8_t *marks, size_t marks_length);

/* Writes the archive of a tree and a plan in edition 2: of any that the judge accepts. The archive
 * buffer has exactly 8 + 10 * P + 8 * N bytes. Refuses 1 to 4, 6 to 8, 10 to 12 and 14. With the
 * marks of balduqen_plan_best, page count and root weight on film are that planner's. */
balduqen_answer balduqen_write_archive2(const uint8_t *table, size_t table_length,
                                        const uint8_t *marks, size_t marks_length,
                                        uint8_t *archive, size_t archive_length);

/* Reads the tree and the plan back from an archive of edition 2, into buffers as those of
 * balduqen_read_archive. Refuses 13, also where a label is 0, 12 for the table buffer, then 8 for
 * the marks buffer. */
balduqen_answer balduqen_read_archive2(const uint8_t *archive, size_t archive_length,
                                       uint8_t *table, size_t table_length,
                                       uint8_t *marks, size_t marks_length);

/* The converters write film of one edition as film of the other, with the very tree and plan that
 * it holds: nothing is planned anew. There and back gives the same bytes. */

/* From the first edition to edition 2. The output has exactly 8 + 10 * P + 8 * N bytes. Refuses 13
 * where balduqen_read_archive does, then 14 where it reads a label 0, then 12. */
balduqen_answer balduqen_convert_to_2(const uint8_t *archive, size_t archive_length,
                                      uint8_t *out, size_t out_length);

/* From edition 2 to the first. The output has exactly 6 + 8 * P + 8 * N bytes. Refuses 13 where
 * balduqen_read_archive2 does, then 15 where N is over 1024, then 12. */
balduqen_answer balduqen_convert_to_1(const uint8_t *archive, size_t archive_length,
                                      uint8_t *out, size_t out_length);

/* Prints a plan as leader sheets: any plan that the judge accepts, whoever made it. The buffer has
 * exactly 4860 bytes for each sheet, BALDUQEN_SHEETS_LENGTH of the page count that the planner or
 * the judge gave; what it holds before is of no matter. Refuses 1 to 4, 6 to 8, 10 to 12 and 14. */
balduqen_answer balduqen_print_sheets(const uint8_t *table, size_t table_length,
                                      const uint8_t *marks, size_t marks_length,
                                      uint8_t *sheets, size_t sheets_length);

/* The price of a plan: of any plan that the judge accepts, whoever made it. Refuses 1 to 4, 6 to 8,
 * 10, 11 and 14, where the judge does. */
balduqen_price_answer balduqen_price(const uint8_t *table, size_t table_length,
                                     const uint8_t *marks, size_t marks_length);

/* The price of balduqen_plan_single's plan less that of balduqen_plan_best's. The buffers are those
 * of a planner, and are left as balduqen_plan_best leaves them: its plan in the marks, and every
 * scratch word 0. Refuses 1 to 4, 6 to 9 and 14. */
balduqen_saving_answer balduqen_saving(const uint8_t *table, size_t table_length,
                                       uint8_t *marks, size_t marks_length,
                                       uint32_t *scratch, size_t scratch_length);

#ifdef __cplusplus
}
#endif

#endif
