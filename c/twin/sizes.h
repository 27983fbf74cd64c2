/* Every size of the twin's memory, said once: the clock, then a raw region a line with its TP2.0 connection at the end, then an ISO 15765 region a
 * line. */
#ifndef TWIN_SIZES_H
#define TWIN_SIZES_H

#define TWIN_CLOCK 4u
#define TWIN_LINES 4u

#define RAW_MAPS 280u                       /* where the map of a raw channel's pass filters lies, and behind it that of its block filters */
#define RAW_MAP 256u                        /* a bit for each of the 2,048 narrow identifiers */
#define RAW_PERIODICS (RAW_MAPS + 2u * RAW_MAP) /* its periodics: 792 */
#define RAW_LAST (RAW_PERIODICS + 2218u)    /* its last code: 3,010 */
#define LINK_AT (RAW_LAST + 1u)             /* its connection, and how long that is */
#define LINK_PART 1091u
#define LINK_MESSAGE 512u                   /* the longest message of a connection */
#define RAW_REGION (LINK_AT + LINK_PART)    /* 4,102 */
#define RAW_PART (TWIN_CLOCK + TWIN_LINES * RAW_REGION)

#define ISO_REGION 8064u
#define ISO_RECORD 536u

#define TWIN_MEMORY (RAW_PART + TWIN_LINES * ISO_REGION) /* 48,668 */

#endif
