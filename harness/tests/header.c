/* Document 01's worked listing, and a larger one, through include/peat.h: what a C program sees of the library. */
#include "peat.h"
#include <stdio.h>

static void print_dips(peat_dips_answer dips) {
    printf("dips %u %zu: %zu %zu %zu, ", dips.number, dips.place, dips.paired, dips.only_first, dips.only_second);
    printf("%d %u\n", dips.differs, dips.day);
}

static void print_book(peat_answer convert, const uint32_t *book) {
    printf("convert %u %zu %u:", convert.number, convert.place, convert.value);
    for (int i = 0; i < 6; i++) printf(" %08X", book[i]);
    printf("\n");
}

int main(void) {
    const uint32_t listing[] = {0x10010102, 0x2014190C, 0x3460B554, 0x3460B400, 0x400107D0, 0x527101F4};
    uint32_t book[6], lines[3];
    uint64_t output[2];
    peat_answer short_book = peat_open(listing, 6, book, 5);
    printf("open %u %zu %u\n", short_book.number, short_book.place, short_book.value);
    peat_answer opened = peat_open(listing, 6, book, 6);
    peat_answer closed = peat_close(listing, 6, book, 6, lines, 3);
    peat_answer issued = peat_issue(listing, 6, book, 6);
    printf("%u %u %u: %08X %08X %08X, %u t\n", opened.number, closed.number, issued.number, lines[0], lines[1], lines[2], issued.value);
    peat_answer replanned = peat_replan(listing, 6, book, 6, 0, 2);
    peat_answer withdrawn = peat_withdraw(listing, 6, book, 6, 0);
    peat_account cell = peat_statement(listing, 6, book, 6, 0);
    printf("replan %u, withdraw %u\n", replanned.number, withdrawn.number);
    printf("statement %u %zu: %u %u %u %u %u %u %d\n", cell.number, cell.place, cell.entered, cell.remaining, cell.oxidised, cell.burned, cell.kg, cell.plan_year, cell.withdrawn);
    peat_total forecast = peat_forecast(listing, 6, book, 6, output, 2), short_output = peat_forecast(listing, 6, book, 6, output, 1);
    printf("forecast %u %zu %llu: %llu %llu\n", forecast.number, forecast.place, (unsigned long long)forecast.total, (unsigned long long)output[0], (unsigned long long)output[1]);
    printf("forecast %u %zu %llu\n", short_output.number, short_output.place, (unsigned long long)short_output.total);
    /* Books of an earlier release: after year 1 with 553 t issued, and of a withdrawn cell with 2^28 - 1 t issued. */
    const uint32_t old_book[] = {0x80000001, 0x90000229, 0xA0000001, 0xB000002D, 0xC000012C};
    const uint32_t all_issued[] = {0x80000002, 0x9FFFFFFF, 0xA0000101, 0xB000005A, 0xC000012C};
    uint32_t converted[6];
    print_book(peat_convert(listing, 6, old_book, 5, converted, 6), converted);
    closed = peat_close(listing, 6, converted, 6, lines, 3);
    issued = peat_issue(listing, 6, converted, 6);
    printf("%u %u: %08X %08X %08X, %u t\n", closed.number, issued.number, lines[0], lines[1], lines[2], issued.value);
    print_book(peat_convert(listing, 6, all_issued, 5, converted, 6), converted);
    issued = peat_issue(listing, 6, converted, 6);
    printf("%u, %u t\n", issued.number, issued.value);
    peat_answer short_old = peat_convert(listing, 6, old_book, 4, converted, 6), short_new = peat_convert(listing, 6, old_book, 5, converted, 5);
    peat_answer new_as_old = peat_convert(listing, 6, converted, 6, book, 6);
    printf("convert %u %zu, %u %zu, ", short_old.number, short_old.place, short_new.number, short_new.place);
    printf("%u %zu\n", new_as_old.number, new_as_old.place);
    /* Fifty cells of 10,000 m2 and 240 kg per m3, that burn 2,150 mm each at the greatest factor, G and e 100. */
    uint32_t deep[2 + 3 + 2 * 50] = {0x10320103, 0x20006464}, deep_book[3 + 3 * 50];
    uint64_t years[3];
    for (int i = 0; i < 3; i++) deep[2 + i] = 0x3FF003FF;
    for (int i = 0; i < 50; i++) {
        deep[5 + 2 * i] = 0x40014E20;
        deep[6 + 2 * i] = 0x52710960;
    }
    peat_total large = peat_forecast(deep, 105, deep_book, 153, years, 3);
    printf("forecast %u %zu %llu\n", large.number, large.place, (unsigned long long)large.total);
    peat_answer core = peat_core(0.7f), levels = peat_levels(12.5f, 10.25f), missing = peat_missing();
    printf("depths %u %u, missing %u\n", core.value, levels.value, missing.number);
    const uint32_t first_width[] = {150}, second_width[] = {1}, first_stock[] = {2000}, second_stock[] = {3000};
    peat_answer discount = peat_discount(first_width, 1, second_width, 1, first_stock, 1, second_stock, 1);
    printf("discount %u\n", discount.value);
    const uint32_t densities[] = {0, 50, 150}, areas[] = {10, 30}, of_stratum[] = {10000};
    peat_logged_answer logged = peat_logged(2, 1, densities, 3, areas, 2, of_stratum, 1);
    peat_logged_answer no_year_0 = peat_logged(2, 1, densities, 2, areas, 2, of_stratum, 1);
    printf("logged %u %zu: %u %d, without year 0 %u\n", logged.number, logged.place, logged.average, logged.holds, no_year_0.number);
    const uint32_t tape_days[] = {1, 4, 7, 9, 12}, logger_days[] = {0, 4, 5, 7, 8, 20}, fallen_days[] = {0, 4, 5, 3, 8, 20};
    const float tape[] = {1, 1.5f, 2.5f, 3, 3}, tape_tolerances[] = {0, 0.25f, 0.25f, 0, 0};
    const float logger[] = {9, 1, 9, 2, 9, 9}, logger_tolerances[] = {0, 0.25f, 0, 0.125f, 0, 0};
    print_dips(peat_dips(tape_days, 5, tape, 5, tape_tolerances, 5, logger_days, 6, logger, 6, logger_tolerances, 6));
    print_dips(peat_dips(logger_days, 6, logger, 6, logger_tolerances, 6, tape_days, 5, tape, 5, tape_tolerances, 5));
    print_dips(peat_dips(tape_days, 5, tape, 5, tape_tolerances, 5, fallen_days, 6, logger, 6, logger_tolerances, 6));
    return 0;
}
