/* Every call of the library from C, on document 01's own case: flows, duty, the meter, rating in one call and in two, choosing
 * and copying, on its hot line the heat flow, and a refusal of each; and a flow under the first rows of the table.
 *
 *   cc -std=c99 -I office/include examples/order.c target/staticlib/liborder.a -o order && ./order
 *
 * It prints what each call gave; the status is 1 if any of it is not what documents 01 and 02 say. */

#include "order.h"

#include <stdio.h>
#include <string.h>

/* k 3, one section, 24 hours, meter 50, G 500, H 1,200, limit 1,500; 71 of kind 7; 80 fixtures, 100 dm, 600 cm, 200 cm. */
static const uint8_t job[50] = {
    0, 0, 0, 50, 1, 3, 1, 24, 0, 50, 1, 0xf4, 4, 0xb0, 5, 0xdc,
    0, 0, 0, 0, 0, 0, 0, 0, 0, 0, 0, 0, 0, 71, 0, 0, 0, 0, 0, 0, 0, 0, 0, 0,
    0, 7, 0, 80, 0, 100, 2, 0x58, 0, 200,
};

/* The same house's hot line, as a record of version 2: byte 40 is its service, and the section begins at byte 41. */
static const uint8_t hot[51] = {
    0, 0, 0, 51, 2, 3, 1, 24, 0, 50, 1, 0xf4, 4, 0xb0, 5, 0xdc,
    0, 0, 0, 0, 0, 0, 0, 0, 0, 0, 0, 0, 0, 71, 0, 0, 0, 0, 0, 0, 0, 0, 0, 0,
    2,
    0, 7, 0, 80, 0, 100, 2, 0x58, 0, 200,
};

/* One basin of an office in its place, at the end of 800 dm: it draws 140 ml/s, under the first row of both sizes. */
static const uint8_t basin[50] = {
    0, 0, 0, 50, 1, 3, 1, 24, 0, 50, 1, 0xf4, 4, 0xb0, 5, 0xdc,
    0, 0, 0, 0, 0, 0, 0, 0, 0, 0, 0, 0, 0, 0, 0, 0, 0, 0, 0, 0, 0, 1, 0, 0,
    0, 11, 0, 1, 3, 0x20, 2, 0x58, 0, 200,
};

/* Two sizes of two rows: bore, price, and flow, velocity and slope of each row. */
static const uint8_t cat[47] = {
    0, 0, 0, 47, 1, 2, 2,
    0, 40, 3, 0x84, 0, 0, 3, 0xe8, 3, 0x20, 0, 40, 0, 0, 0xb, 0xb8, 9, 0x60, 1, 0x2c,
    0, 50, 5, 0x14, 0, 0, 3, 0xe8, 1, 0xf4, 0, 12, 0, 0, 0xb, 0xb8, 5, 0xdc, 0, 90,
};

/* A vane meter of 40 mm and a turbine meter of 50 mm: type, resistance and service flow. */
static const uint8_t meters[10] = {
    1, 0x13, 0x88, 0x19, 0x00,
    2, 0x05, 0x96, 0x2e, 0xe0,
};

static uint8_t out[ORDER_METER_BYTES];
static uint8_t rated[ORDER_RATE_BYTES];
static uint8_t losses[4 * 63];
static uint8_t work[ORDER_WORK_BYTES];
static int wrong;

static uint32_t number_at(const uint8_t *bytes)
{
    return (uint32_t)bytes[0] << 24 | (uint32_t)bytes[1] << 16 | (uint32_t)bytes[2] << 8 | bytes[3];
}

static void is(const char *what, uint32_t given, uint32_t expected)
{
    printf("%s %lu\n", what, (unsigned long)given);
    if (given != expected) {
        printf("  expected %lu\n", (unsigned long)expected);
        wrong = 1;
    }
}

/* Rating in two calls: the losses are gathered from the first result, and the two together have what order_rate wrote. */
static void in_two_calls(const uint8_t *sizes, size_t sections)
{
    size_t i;

    is("rate", order_rate(job, sizeof job, cat, sizeof cat, sizes, sections, rated, sizeof rated), 0);
    is("losses", order_losses(job, sizeof job, cat, sizeof cat, sizes, sections, out, ORDER_LOSSES_BYTES), 0);
    for (i = 0; i < sections; i++) {
        is("flow of the section", number_at(out + 10 * i), 2052);
        is("velocity and loss of the section", memcmp(out + 10 * i + 4, rated + 9 + 6 * i, 6) == 0, 1);
        memcpy(losses + 4 * i, out + 10 * i + 6, 4);
    }
    is("heads", order_heads(job, sizeof job, losses, 4 * sections, out, ORDER_HEADS_BYTES), 0);
    is("the same heads", memcmp(out, rated, ORDER_HEADS_BYTES) == 0, 1);
}

/* The hot line: cold water of 5 degrees and a stated loss of 1,200 W. 116 * 444 * 50 / 100 are 25,752 W, and 116 * 2,624 * 50 / 100
 * are 152,192 W. */
static void hot_line(void)
{
    is("flow of the hot line", order_flow(hot, sizeof hot, out, ORDER_FLOW_BYTES), 0);
    is("hour", number_at(out), 2624);
    is("day", number_at(out + 4), 10650);
    is("mean hour", number_at(out + 8), 444);
    is("section 1", number_at(out + 12), 1206);

    is("heat", order_heat(hot, sizeof hot, 5, 1200, out, ORDER_HEAT_BYTES), 0);
    is("watts of the mean hour", number_at(out), 26952);
    is("watts of the greatest hour", number_at(out + 4), 153392);
    is("heat of the whole house", order_heat(job, sizeof job, 5, 1200, out, ORDER_HEAT_BYTES), 20);
    is("heat with water of 31 degrees", order_heat(hot, sizeof hot, 31, 1200, out, ORDER_HEAT_BYTES), 21);
    is("heat with water of -1 degree", order_heat(hot, sizeof hot, (uint32_t)-1, 1200, out, ORDER_HEAT_BYTES), 21);
    is("heat into 7 bytes", order_heat(hot, sizeof hot, 5, 1200, out, 7), 14);

    is("copy of the hot line", order_copy(hot, sizeof hot, out, ORDER_COPY_BYTES), 0);
    is("the same bytes", memcmp(out, hot, sizeof hot) == 0, 1);
}

/* The basin with size 1: 140 * 800 / 1,000 are 112 mm/s, 140 * 40 / 1,000 are 5.6, up to a slope of 6, and 6 * 800 * 13 / 1,000 are
 * 62.4, up to 63 cm, behind which 50 + 600 + 200 cm are needed. Size 1 costs 900 * 800. */
static void small_flow(const uint8_t *narrow, size_t needed)
{
    is("rate of the basin", order_rate(basin, sizeof basin, cat, sizeof cat, narrow, 1, out, ORDER_RATE_BYTES), 0);
    is("required head", number_at(out), 913);
    is("velocity", (uint32_t)out[9] << 8 | out[10], 112);
    is("loss", number_at(out + 11), 63);
    is("choose for the basin",
       order_choose(basin, sizeof basin, cat, sizeof cat, work, needed, out, ORDER_CHOOSE_BYTES), 0);
    is("cost", number_at(out), 720000);
    is("size", out[4], 1);
}

int main(void)
{
    static const uint8_t wide[1] = {2}, narrow[1] = {1};
    size_t needed = 4u * (1 + 1) * (1200 + 1001);

    is("version", ORDER_VERSION, 4);

    is("flow", order_flow(job, sizeof job, out, ORDER_FLOW_BYTES), 0);
    is("hour", number_at(out), 4542);
    is("day", number_at(out + 4), 17750);
    is("mean hour", number_at(out + 8), 740);
    is("section 1", number_at(out + 12), 2052);
    is("flow of 49 bytes", order_flow(job, 49, out, ORDER_FLOW_BYTES), 1);
    is("flow into 15 bytes", order_flow(job, sizeof job, out, 15), 14);

    is("duty", order_duty(job, sizeof job, out, ORDER_DUTY_BYTES), 0);
    is("the house", number_at(out), 2052);
    is("duty into 3 bytes", order_duty(job, sizeof job, out, 3), 14);

    is("meter", order_meter(job, sizeof job, meters, sizeof meters, out, ORDER_METER_BYTES), 0);
    is("place", out[0], 2);
    is("meter loss", (uint32_t)out[9] << 8 | out[10], 61);
    is("the same bytes but for the loss",
       memcmp(out + 1, job, 8) == 0 && memcmp(out + 11, job + 10, sizeof job - 10) == 0, 1);
    is("meter from 9 bytes", order_meter(job, sizeof job, meters, 9, out, ORDER_METER_BYTES), 17);
    is("meter into 50 bytes", order_meter(job, sizeof job, meters, sizeof meters, out, 50), 14);

    is("rate", order_rate(job, sizeof job, cat, sizeof cat, wide, 1, out, ORDER_RATE_BYTES), 0);
    is("required head", number_at(out), 921);
    is("pump head", number_at(out + 4), 421);
    is("dictating section", out[8], 1);
    is("velocity", (uint32_t)out[9] << 8 | out[10], 1026);
    is("loss", number_at(out + 11), 71);
    is("rate with size 1", order_rate(job, sizeof job, cat, sizeof cat, narrow, 1, out, ORDER_RATE_BYTES), 13);
    is("rate without sizes", order_rate(job, sizeof job, cat, sizeof cat, wide, 0, out, ORDER_RATE_BYTES), 12);

    in_two_calls(wide, 1);
    is("required head", number_at(out), 921);
    is("losses with size 1",
       order_losses(job, sizeof job, cat, sizeof cat, narrow, 1, out, ORDER_LOSSES_BYTES), 13);
    is("losses into 9 bytes", order_losses(job, sizeof job, cat, sizeof cat, narrow, 1, out, 9), 14);
    memset(losses, 0, 4);
    is("heads without losses", order_heads(job, sizeof job, losses, 4, out, ORDER_HEADS_BYTES), 0);
    is("required head", number_at(out), 850);
    is("pump head", number_at(out + 4), 350);
    is("heads of 3 bytes", order_heads(job, sizeof job, losses, 3, out, ORDER_HEADS_BYTES), 19);
    is("heads into 8 bytes", order_heads(job, sizeof job, losses, 4, out, 8), 14);

    is("choose", order_choose(job, sizeof job, cat, sizeof cat, work, needed, out, ORDER_CHOOSE_BYTES), 0);
    is("cost", number_at(out), 130000);
    is("size", out[4], 2);
    is("choose with less workspace",
       order_choose(job, sizeof job, cat, sizeof cat, work, needed - 1, out, ORDER_CHOOSE_BYTES), 15);

    is("copy", order_copy(job, sizeof job, out, ORDER_COPY_BYTES), 0);
    is("the same bytes", memcmp(out, job, sizeof job) == 0, 1);
    is("copy into 49 bytes", order_copy(job, sizeof job, out, 49), 14);

    hot_line();
    small_flow(narrow, needed);
    return wrong;
}
