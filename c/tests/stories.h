/* Stories worked out by hand, for one side: included once with CALL and SIDE for the core and once for the twin. What no recording can show stands
 * here: memories kept from before, and calls that recordings don't hold. */

/* 125,000 is retired: a memory that holds it from before is valid, and its channel runs on until it is disconnected */
static void SIDE(retired)(void) {
    uint32_t v;
    CODE(0x00, CALL(power_on)(BOX));
    CODE(0x19, CALL(connect)(BOX, 0, 5, 0, 125000, &v));
    CODE(0x19, CALL(connect)(BOX, 9, 5, 0, 125000, &v)); /* before the line's 0x13 */
    CODE(0x06, CALL(connect)(BOX, 9, 5, 1, 125000, &v));
    CODE(0x00, CALL(connect)(BOX, 0, 5, 0, 500000, &v));
    CODE(0x05, CALL(set)(BOX, 1, 1, 125000));
    trawl_store32(box + region_of(1) + 5, 125000);
    must(CALL(valid)(BOX) != 0, "a memory that holds 125,000 is valid");
    GIVES(0x00, 125000, CALL(get)(BOX, 1, 1, &v));
    CODE(0x05, CALL(set)(BOX, 1, 1, 125000)); /* even there */
    GIVES(0x00, 125000, CALL(get)(BOX, 1, 1, &v));
    CODE(0x14, CALL(connect)(BOX, 0, 5, 0, 250000, &v));
    CODE(0x19, CALL(connect)(BOX, 0, 5, 0, 125000, &v));
    GIVES(0x00, 1, CALL(start_filter)(BOX, 1, 1, LEND(every), LEND(every), &v));
    CODE(0x00, CALL(frame)(BOX, 0, 0, 0x7E8, NULL, 0));
    GIVES(0x00, 1, CALL(read)(BOX, 1, 1, LEND(record), &v));
    GIVES(0x00, 1, CALL(write)(BOX, 1, 1, LEND(every), &v));
    CODE(0x00, CALL(take)(BOX, 1, LEND(record)));
    CODE(0x00, CALL(sent)(BOX, 1));
    CODE(0x00, CALL(advance)(BOX, 1000000));
    CODE(0x00, CALL(set)(BOX, 1, 3, 1)); /* another parameter leaves the rate */
    GIVES(0x00, 125000, CALL(get)(BOX, 1, 1, &v));
    CODE(0x00, CALL(set)(BOX, 1, 1, 250000));
    GIVES(0x00, 250000, CALL(get)(BOX, 1, 1, &v));
    CODE(0x05, CALL(set)(BOX, 1, 1, 125000));
    CODE(0x00, CALL(disconnect)(BOX, 1));
    CODE(0x19, CALL(connect)(BOX, 0, 5, 0, 125000, &v));
    CODE(0x00, CALL(connect)(BOX, 0, 5, 0, 250000, &v));
}

/* the last code of a channel */
#define ASKED(number, channel) GIVES(0x00, number, CALL(last_error)(BOX, channel, &v))

static void SIDE(went_wrong)(void) {
    uint32_t v;
    CODE(0x00, CALL(power_on)(BOX));
    CODE(0x00, CALL(connect)(BOX, 0, 5, 0, 500000, &v));
    ASKED(0, 1);
    GIVES(0x10, 0, CALL(read)(BOX, 1, 1, LEND(record), &v));
    ASKED(0x10, 1);
    GIVES(0x00, 0, CALL(read)(BOX, 1, 0, LEND(record), &v));
    ASKED(0x10, 1); /* 0x00 leaves it */
    ASKED(0x10, 1); /* asking too */

    CODE(0x13, CALL(frame)(BOX, 9, 0, 0, NULL, 0));
    CODE(0x0A, CALL(frame)(BOX, 0, 0, 0x800, NULL, 0));
    CODE(0x0B, CALL(advance)(BOX, 2000000));
    GIVES(0x19, 0, CALL(connect)(BOX, 0, 5, 0, 1, &v));
    GIVES(0x03, 0, CALL(connect)(BOX, 0, 7, 0, 500000, &v));
    GIVES(0x06, 0, CALL(connect)(BOX, 0, 5, 1, 500000, &v));
    GIVES(0x13, 0, CALL(connect)(BOX, 4, 5, 0, 500000, &v));
    GIVES(0x02, 0, CALL(read)(BOX, 2, 1, LEND(record), &v));
    GIVES(0x02, 0, CALL(read)(BOX, 257, 1, LEND(record), &v));
    CODE(0x1A, CALL(sent)(box, sizeof box - 1, 1));
    ASKED(0x10, 1); /* none of these is kept */
    GIVES(0x02, 0, CALL(last_error)(BOX, 2, &v));
    ASKED(0x10, 1); /* nor is this */

    GIVES(0x14, 0, CALL(connect)(BOX, 0, 5, 0, 500000, &v));
    ASKED(0x14, 1);
    GIVES(0x11, 16, CALL(write)(BOX, 1, 17, LEND(many), &v)); /* a result counts */
    ASKED(0x11, 1);
    CODE(0x04, CALL(take)(BOX, 1, record, 35));
    ASKED(0x04, 1);
    CODE(0x00, CALL(connect)(BOX, 1, 5, 0, 500000, &v)); /* each channel has its own */
    ASKED(0, 2);
    CODE(0x07, CALL(sent)(BOX, 2));
    ASKED(0x07, 2);
    ASKED(0x04, 1);
    GIVES(0x01, 0, CALL(get)(BOX, 2, 9, &v)); /* a get's refusal too */
    ASKED(0x01, 2);
    CODE(0x05, CALL(set)(BOX, 2, 1, 125000));
    ASKED(0x05, 2);
    CODE(0x00, CALL(disconnect)(BOX, 1));
    must(box[last_of(1)] == 0, "gone with the channel");
    CODE(0x00, CALL(connect)(BOX, 0, 5, 0, 500000, &v));
    ASKED(0, 1);
    ASKED(0x05, 2);
    CODE(0x00, CALL(close)(BOX));
    must(box[last_of(2)] == 0, "gone with the channels");
}

/* results of a read: fewer than asked, and a loss */
static void SIDE(results)(void) {
    static uint8_t room[40 * TRAWL_RECORD];
    uint32_t v;
    CODE(0x00, CALL(power_on)(BOX));
    CODE(0x00, CALL(connect)(BOX, 3, 5, 0, 500000, &v));
    GIVES(0x00, 1, CALL(start_filter)(BOX, 4, 1, LEND(every), LEND(every), &v));
    CODE(0x00, CALL(frame)(BOX, 3, 0, 1, NULL, 0));
    GIVES(0x09, 1, CALL(read)(BOX, 4, 2, LEND(room), &v));
    ASKED(0x09, 4);
    for (int i = 0; i < 33; i++) CODE(0x00, CALL(frame)(BOX, 3, 0, 1, NULL, 0));
    ASKED(0x09, 4); /* the loss is told by the read */
    GIVES(0x12, 32, CALL(read)(BOX, 4, 40, LEND(room), &v));
    ASKED(0x12, 4);
}

/* lists of parameters, one after the other on the same channel */
static void SIDE(lists)(void) {
    uint32_t v;
    struct CALL(pair) set[4] = {{3, 1}, {1, 250000}, {9, 0}, {3, 0}}, got[3] = {{3, 77}, {9, 78}, {1, 79}};
    struct CALL(pair) three[3] = {{1, 250000}, {3, 2}, {1, 500000}}, twice[2] = {{3, 0}, {3, 1}}, both[2] = {{1, 77}, {3, 78}};
    struct CALL(pair) wrong[2] = {{3, 1}, {9, 9}}, old[3] = {{3, 0}, {1, 125000}, {3, 1}}, seventeen[17], sixteen[17];
    for (int i = 0; i < 17; i++) seventeen[i].parameter = sixteen[i].parameter = 3, seventeen[i].value = 0, sixteen[i].value = 0x900 + (uint32_t)i;
    CODE(0x00, CALL(power_on)(BOX));
    CODE(0x00, CALL(connect)(BOX, 0, 5, 0, 500000, &v));

    CODE(0x01, CALL(set_list)(BOX, 1, set, 4)); /* what stands before the refused pair is in force, what stands behind it isn't */
    GIVES(0x00, 1, CALL(get)(BOX, 1, 3, &v));
    GIVES(0x00, 250000, CALL(get)(BOX, 1, 1, &v));
    must(set[0].parameter == 3 && set[0].value == 1 && set[2].parameter == 9 && set[2].value == 0 && set[3].value == 0, "a list set is only read");
    ASKED(0x01, 1);

    CODE(0x01, CALL(get_list)(BOX, 1, got, 3));
    must(got[0].parameter == 3 && got[0].value == 1, "written before the refused pair");
    must(got[1].parameter == 9 && got[1].value == 78 && got[2].parameter == 1 && got[2].value == 79, "left from the refused pair on");

    CODE(0x05, CALL(set_list)(BOX, 1, three, 3));
    GIVES(0x00, 250000, CALL(get)(BOX, 1, 1, &v));
    ASKED(0x05, 1);

    CODE(0x04, CALL(set_list)(BOX, 1, seventeen, 17));
    GIVES(0x00, 1, CALL(get)(BOX, 1, 3, &v)); /* none of them was set */
    ASKED(0x04, 1);
    CODE(0x02, CALL(set_list)(BOX, 2, seventeen, 17));
    CODE(0x02, CALL(get_list)(BOX, 2, seventeen, 17));
    CODE(0x1A, CALL(set_list)(box, sizeof box - 1, 1, seventeen, 17));
    CODE(0x00, CALL(set_list)(BOX, 1, seventeen, 16));
    GIVES(0x00, 0, CALL(get)(BOX, 1, 3, &v)); /* sixteen are */
    ASKED(0x04, 1); /* 0x00 leaves it */
    CODE(0x04, CALL(get_list)(BOX, 1, sixteen, 17));
    must(sixteen[0].value == 0x900 && sixteen[16].value == 0x910, "none is written");
    CODE(0x00, CALL(get_list)(BOX, 1, sixteen, 16));
    for (int i = 0; i < 17; i++) must(sixteen[i].parameter == 3 && sixteen[i].value == (i < 16 ? 0u : 0x910u), "sixteen are");

    CODE(0x00, CALL(set_list)(BOX, 1, twice, 2)); /* the later one wins */
    GIVES(0x00, 1, CALL(get)(BOX, 1, 3, &v));
    CODE(0x00, CALL(set_list)(BOX, 1, twice, 0));
    CODE(0x00, CALL(get_list)(BOX, 1, twice, 0));
    GIVES(0x00, 1, CALL(get)(BOX, 1, 3, &v));
    CODE(0x00, CALL(get_list)(BOX, 1, both, 2));
    must(both[0].parameter == 1 && both[0].value == 250000 && both[1].parameter == 3 && both[1].value == 1, "both parameters");

    CODE(0x00, CALL(set)(BOX, 1, 3, 0));
    CODE(0x01, CALL(set_list)(BOX, 1, wrong, 2));
    ASKED(0x01, 1); /* one code, of the whole list */
    GIVES(0x00, 1, CALL(get)(BOX, 1, 3, &v));

    CODE(0x05, CALL(set_list)(BOX, 1, old, 3)); /* 125,000 is retired in lists too */
    GIVES(0x00, 0, CALL(get)(BOX, 1, 3, &v));
    GIVES(0x00, 250000, CALL(get)(BOX, 1, 1, &v));
    trawl_store32(box + region_of(1) + 5, 125000);
    CODE(0x00, CALL(get_list)(BOX, 1, both, 2)); /* and told where it is still in force */
    must(both[0].value == 125000 && both[1].value == 0, "125,000 in force");
}

static void SIDE(all)(void) {
    SIDE(retired)();
    SIDE(went_wrong)();
    SIDE(results)();
    SIDE(lists)();
}

#undef ASKED
