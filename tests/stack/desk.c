/* The calls. What they are given stands in static memory, so that a work has nothing on its own
 * stack. */
#include "desk.h"

#include "painted.h"

struct lent now;
size_t reply, number;

static size_t other_number;

/* A function that does nothing, with the shape of each of the five. */
__asm__ (".text\nidle: xor %eax, %eax\nret\n");
extern __typeof__ (scrollbobbin_check) idle_check __asm__ ("idle");
extern __typeof__ (scrollbobbin_look) idle_look __asm__ ("idle");
extern __typeof__ (scrollbobbin_replace) idle_replace __asm__ ("idle");
extern __typeof__ (scrollbobbin_write_sheet) idle_write_sheet __asm__ ("idle");
extern __typeof__ (scrollbobbin_read_sheet) idle_read_sheet __asm__ ("idle");

static struct {
    __typeof__ (scrollbobbin_check) *check;
    __typeof__ (scrollbobbin_look) *look;
    __typeof__ (scrollbobbin_replace) *replace;
    __typeof__ (scrollbobbin_write_sheet) *write_sheet;
    __typeof__ (scrollbobbin_read_sheet) *read_sheet;
} called;

void call_idle(void) {
    called.check = idle_check;
    called.look = idle_look;
    called.replace = idle_replace;
    called.write_sheet = idle_write_sheet;
    called.read_sheet = idle_read_sheet;
}

void call_library(void) {
    called.check = scrollbobbin_check;
    called.look = scrollbobbin_look;
    called.replace = scrollbobbin_replace;
    called.write_sheet = scrollbobbin_write_sheet;
    called.read_sheet = scrollbobbin_read_sheet;
}

#define WHOLE(list) now.list, sizeof now.list / sizeof *now.list
#define COLUMN_LISTING WHOLE(col_starts), WHOLE(col_rows)
#define ROW_LISTING WHOLE(row_starts), WHOLE(row_cols)
#define ORDER now.order_rows, now.order_length, now.order_cols, now.order_length
#define SIX_LISTS COLUMN_LISTING, ROW_LISTING, ORDER
#define PART(list) now.list, now.list##_length

static void check(void) {
    COUNT_FROM_HERE();
    reply = called.check(now.size, SIX_LISTS);
}

static void look(void) {
    COUNT_FROM_HERE();
    reply = called.look(now.size, COLUMN_LISTING, now.column, &number);
}

static void replace(void) {
    COUNT_FROM_HERE();
    reply = called.replace(
        now.size, SIX_LISTS, now.column, PART(new_rows), PART(eta), &number, &other_number);
}

static void write_sheet(void) {
    COUNT_FROM_HERE();
    reply = called.write_sheet(now.size, SIX_LISTS, PART(sheet), &number);
}

static void read_sheet(void) {
    COUNT_FROM_HERE();
    reply = called.read_sheet(PART(sheet), SIX_LISTS, &number);
}

const struct function CHECK = {"scrollbobbin_check", check, 13 - 6};
const struct function LOOK = {"scrollbobbin_look", look, 7 - 6};
const struct function REPLACE = {"scrollbobbin_replace", replace, 20 - 6};
const struct function WRITE_SHEET = {"scrollbobbin_write_sheet", write_sheet, 16 - 6};
const struct function READ_SHEET = {"scrollbobbin_read_sheet", read_sheet, 15 - 6};
