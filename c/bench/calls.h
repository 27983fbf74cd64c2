/* The timed loops, for one side: included once with CALL and SIDE for the core and once for the twin. Each plays a few calls from a device and
 * then puts the device back, and gives how many calls it made. */

static unsigned SIDE(valid)(uint8_t *m) {
    unsigned good = 0;
    for (int i = 0; i < 16; i++) good += CALL(valid)(m, MEMORY) != 0;
    keep(good);
    return 16;
}

static unsigned SIDE(frame_in)(uint8_t *m) {
    for (uint32_t i = 0; i < 16; i++) keep(CALL(frame)(m, MEMORY, i & 3, 0, 0x7E8, data8, 8));
    return 16;
}

static unsigned SIDE(frame_out)(uint8_t *m) {
    for (uint32_t i = 0; i < 16; i++) keep(CALL(frame)(m, MEMORY, i & 3, 0, 0x123, data8, 8));
    return 16;
}

static unsigned SIDE(read_one)(uint8_t *m) {
    uint32_t v;
    for (uint32_t i = 0; i < 12; i++) keep(CALL(read)(m, MEMORY, 1 + (i & 3), 1, buffer, sizeof buffer, &v) + v);
    return 12;
}

static unsigned SIDE(read_32)(uint8_t *m) {
    uint32_t v;
    for (uint32_t i = 0; i < 4; i++) keep(CALL(read)(m, MEMORY, 1 + i, 32, buffer, sizeof buffer, &v) + v);
    return 4;
}

/* a frame that is let in, and read at once */
static unsigned SIDE(frame_read)(uint8_t *m) {
    uint32_t v;
    for (uint32_t i = 0; i < 8; i++) {
        keep(CALL(frame)(m, MEMORY, i & 3, 0, 0x7E8, data8, 8));
        keep(CALL(read)(m, MEMORY, 1 + (i & 3), 1, buffer, sizeof buffer, &v) + v);
    }
    return 16;
}

static unsigned SIDE(write_one)(uint8_t *m) {
    uint32_t v;
    for (uint32_t i = 0; i < 16; i++) keep(CALL(write)(m, MEMORY, 1 + (i & 3), 1, message, sizeof message, &v) + v);
    return 16;
}

static unsigned SIDE(take_sent)(uint8_t *m) {
    for (uint32_t i = 0; i < 16; i++) {
        keep(CALL(take)(m, MEMORY, 1 + (i & 3), buffer, sizeof buffer));
        keep(CALL(sent)(m, MEMORY, 1 + (i & 3)));
    }
    return 32;
}

static unsigned SIDE(advance)(uint8_t *m) {
    for (uint32_t i = 0; i < 16; i++) keep(CALL(advance)(m, MEMORY, 1000));
    return 16;
}

static unsigned SIDE(filters)(uint8_t *m) {
    uint32_t v;
    for (uint32_t i = 0; i < 8; i++) {
        keep(CALL(stop_filter)(m, MEMORY, 1 + (i & 3), 1));
        keep(CALL(start_filter)(m, MEMORY, 1 + (i & 3), 1, message, sizeof message, message, sizeof message, &v) + v);
    }
    return 16;
}

static unsigned SIDE(periodics)(uint8_t *m) {
    uint32_t v;
    for (uint32_t i = 0; i < 8; i++) {
        keep(CALL(stop_periodic)(m, MEMORY, 1 + (i & 3), 1));
        keep(CALL(start_periodic)(m, MEMORY, 1 + (i & 3), message, sizeof message, 10, &v) + v);
    }
    return 16;
}

static unsigned SIDE(settings)(uint8_t *m) {
    uint32_t v;
    for (uint32_t i = 0; i < 8; i++) {
        keep(CALL(get)(m, MEMORY, 1 + (i & 3), 1, &v) + v);
        keep(CALL(set)(m, MEMORY, 1 + (i & 3), 3, i & 1));
    }
    return 16;
}

static unsigned SIDE(set_list)(uint8_t *m) {
    struct CALL(pair) two[2] = {{1, 500000}, {3, 0}};
    for (uint32_t i = 0; i < 16; i++) {
        two[1].value = i / 4 & 1;
        keep(CALL(set_list)(m, MEMORY, 1 + (i & 3), two, 2));
    }
    return 16;
}

static unsigned SIDE(get_list)(uint8_t *m) {
    struct CALL(pair) two[2] = {{1, 0}, {3, 0}};
    for (uint32_t i = 0; i < 16; i++) keep(CALL(get_list)(m, MEMORY, 1 + (i & 3), two, 2) + two[0].value + two[1].value);
    return 16;
}

static unsigned SIDE(last_error)(uint8_t *m) {
    uint32_t v;
    for (uint32_t i = 0; i < 16; i++) keep(CALL(last_error)(m, MEMORY, 1 + (i & 3), &v) + v);
    return 16;
}

static unsigned SIDE(decide)(uint8_t *m) {
    uint32_t v;
    for (uint32_t i = 0; i < 16; i++) keep(CALL(decide)(m, MEMORY, 1 + (i & 3), 0, i & 4 ? 0x7E8 : 0x123, &v) + v);
    return 16;
}

static unsigned SIDE(save)(uint8_t *m) {
    uint32_t v;
    for (uint32_t i = 0; i < 16; i++) keep(CALL(save)(m, MEMORY, 1 + (i & 3), buffer, sizeof buffer, &v) + v);
    return 16;
}

static unsigned SIDE(load)(uint8_t *m) {
    for (uint32_t i = 0; i < 16; i++) keep(CALL(load)(m, MEMORY, 1 + (i & 3), store, stored));
    return 16;
}

static unsigned SIDE(clear)(uint8_t *m) {
    for (uint32_t i = 0; i < 16; i++) keep(CALL(clear)(m, MEMORY, 1 + (i & 3), 1 + i / 4));
    return 16;
}

static unsigned SIDE(connect)(uint8_t *m) {
    uint32_t v;
    for (uint32_t i = 0; i < 4; i++) {
        keep(CALL(disconnect)(m, MEMORY, 1 + i));
        keep(CALL(connect)(m, MEMORY, i, 5, 0, 500000, &v) + v);
    }
    return 8;
}

static unsigned SIDE(close)(uint8_t *m) {
    keep(CALL(close)(m, MEMORY));
    return 1;
}

/* what a busy box does: frames on all lines, reads, now and then a frame to send */
static unsigned SIDE(mix)(uint8_t *m) {
    uint32_t v;
    for (uint32_t i = 0; i < 8; i++) {
        keep(CALL(frame)(m, MEMORY, i & 3, 0, 0x7E8, data8, 8));
        keep(CALL(frame)(m, MEMORY, (i + 1) & 3, 0, 0x123, data8, 8));
        keep(CALL(read)(m, MEMORY, 1 + (i & 3), 4, buffer, sizeof buffer, &v) + v);
        keep(CALL(take)(m, MEMORY, 1 + (i & 3), buffer, sizeof buffer));
        keep(CALL(advance)(m, MEMORY, 500));
    }
    return 40;
}

/* ---- ISO 15765 ---- */

/* what a conversation receives goes on: the next four frames on each line */
static unsigned SIDE(frame_talk)(uint8_t *m) {
    for (uint32_t i = 0; i < 16; i++) {
        data8[0] = (uint8_t)(0x21 + i / 4);
        keep(CALL(frame)(m, MEMORY, i & 3, 0, THEIRS, data8, 8));
    }
    data8[0] = 3;
    return 16;
}

/* a message of 508 bytes comes to channel 5 in 73 frames, and is read with its RxStart: one call here is the whole of it */
static unsigned SIDE(message_in)(uint8_t *m) {
    uint8_t b[8] = {0x11, 0xFC};
    uint32_t v;
    keep(CALL(frame)(m, MEMORY, 0, 0, THEIRS, b, 8));
    keep(CALL(take)(m, MEMORY, 5, buffer, sizeof buffer));
    keep(CALL(sent)(m, MEMORY, 5));
    for (uint32_t k = 1; k < FRAMES; k++) {
        b[0] = (uint8_t)(0x20 | k % 16);
        keep(CALL(frame)(m, MEMORY, 0, 0, THEIRS, b, 8));
    }
    keep(CALL(read)(m, MEMORY, 5, 2, buffer, sizeof buffer, &v) + v);
    return 1;
}

/* one goes in 73 frames, and its TxDone is read */
static unsigned SIDE(message_out)(uint8_t *m) {
    uint32_t v;
    keep(CALL(write)(m, MEMORY, 5, 1, text, sizeof text, &v) + v);
    for (uint32_t k = 0; k < FRAMES; k++) {
        keep(CALL(take)(m, MEMORY, 5, buffer, sizeof buffer));
        keep(CALL(sent)(m, MEMORY, 5));
        if (k == 0) keep(CALL(frame)(m, MEMORY, 0, 0, THEIRS, go_on, sizeof go_on));
    }
    keep(CALL(read)(m, MEMORY, 5, 1, buffer, sizeof buffer, &v) + v);
    return 1;
}

/* ---- TP2.0 ---- */

/* nothing to send: the connection is looked at and passed over */
static unsigned SIDE(take_none)(uint8_t *m) {
    for (uint32_t i = 0; i < 16; i++) keep(CALL(take)(m, MEMORY, 1 + (i & 3), buffer, sizeof buffer));
    return 16;
}

static unsigned SIDE(link_open_end)(uint8_t *m) {
    for (uint32_t i = 0; i < 8; i++) {
        keep(CALL(link_open)(m, MEMORY, 1 + (i & 3), 0x200, 0x01, MODULE, 0x01, 15, 0xFF, 0x00));
        keep(CALL(link_end)(m, MEMORY, 1 + (i & 3)));
    }
    return 16;
}

/* a message of 512 bytes comes to channel 1 in 74 telegrams, every fifteenth of which is acknowledged, and is fetched: one call here is the whole */
static unsigned SIDE(link_in)(uint8_t *m) {
    uint8_t b[8] = {0};
    uint32_t v;
    for (uint32_t k = 0; k < TELEGRAMS; k++) {
        int last = k + 1 == TELEGRAMS, asks = last || k % 15 == 14;
        b[0] = (uint8_t)((asks ? 0 : 0x20) | (last ? 0x10 : 0) | k % 16);
        keep(CALL(frame)(m, MEMORY, 0, 0, MODULE, b, last ? 2 : 8));
        if (!asks) continue;
        keep(CALL(take)(m, MEMORY, 1, buffer, sizeof buffer));
        keep(CALL(sent)(m, MEMORY, 1));
    }
    keep(CALL(link_receive)(m, MEMORY, 1, buffer, sizeof buffer, &v) + v);
    return 1;
}

/* one goes, and the module acknowledges every fifteenth telegram and the last */
static unsigned SIDE(link_out)(uint8_t *m) {
    keep(CALL(link_send)(m, MEMORY, 1, text, LINK_MESSAGE));
    for (uint32_t k = 0; k < TELEGRAMS; k++) {
        uint8_t acknowledge = (uint8_t)(0xB0 | (k + 1) % 16);
        keep(CALL(take)(m, MEMORY, 1, buffer, sizeof buffer));
        keep(CALL(sent)(m, MEMORY, 1));
        if (k % 15 == 14 || k + 1 == TELEGRAMS) keep(CALL(frame)(m, MEMORY, 0, 0, MODULE, &acknowledge, 1));
    }
    return 1;
}
