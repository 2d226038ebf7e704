/* What all parts of the reader share: verdicts, big-endian numbers, and unit marks. */
#ifndef MARKS_H
#define MARKS_H

#include <stddef.h>
#include <stdint.h>
#include <string.h>

#define UNLIKELY(condition) __builtin_expect(!!(condition), 0)

enum { MOST_BYTES = 65536, MOST_FIELDS = 256, TOO_SHORT = 255 };

/* What was judged: with number 0 the place is that after the item, else it is the refusal's. */
typedef struct {
    uint32_t number;
    size_t place;
} Verdict;

static inline Verdict verdict(uint32_t number, size_t place) { return (Verdict){number, place}; }

/* The number in the two bytes from here on. */
static inline uint32_t two_bytes(const uint8_t *bytes) { return (uint32_t)bytes[0] << 8 | bytes[1]; }

/* The number in the four bytes from here on. */
static inline uint32_t four_bytes(const uint8_t *bytes) { return two_bytes(bytes) << 16 | two_bytes(bytes + 2); }

/* The number in the eight bytes from here on. */
static inline uint64_t eight_bytes(const uint8_t *bytes) {
    return (uint64_t)four_bytes(bytes) << 32 | four_bytes(bytes + 4);
}

enum { LAST_PLAIN = 28, MONEY = 100, LAST_MONEY = 106, LAST_CURRENCY = 1000 };

/* The last display code of each unit type that has one; the types of money per unit have that of their unit. */
static const uint8_t LAST_DISPLAY[LAST_MONEY + 1] = {
    0, 8, 1, 6, 3, 21, 1, 16, 7, 8, 8, 38, 1, 15, 6, 16, 21, 21, 21, 24, 15, 16, 13, 4, 4, 10, 15, 3, 27,
    [101] = 21, [102] = 38, [103] = 21, [104] = 24, [105] = 10, [106] = 27,
};

/* 1 at each currency code that Appendix A lists. */
#define L(code) [code] = 1,
static const uint8_t CURRENCY[LAST_CURRENCY + 1] = {
    L(8) L(12) L(32) L(36) L(44) L(48) L(50) L(51) L(52) L(60) L(64) L(68) L(72) L(84) L(90) L(96) L(104) L(108)
    L(116) L(124) L(132) L(136) L(144) L(152) L(156) L(170) L(174) L(188) L(191) L(192) L(203) L(208) L(214)
    L(222) L(230) L(232) L(238) L(242) L(262) L(270) L(292) L(320) L(324) L(328) L(332) L(340) L(344) L(348)
    L(352) L(356) L(360) L(364) L(368) L(376) L(388) L(392) L(398) L(400) L(404) L(408) L(410) L(414) L(417)
    L(418) L(422) L(426) L(430) L(434) L(446) L(454) L(458) L(462) L(478) L(480) L(484) L(496) L(498) L(504)
    L(512) L(516) L(524) L(532) L(533) L(548) L(554) L(558) L(566) L(578) L(586) L(590) L(598) L(600) L(604)
    L(608) L(634) L(643) L(646) L(654) L(678) L(682) L(690) L(694) L(702) L(704) L(706) L(710) L(728) L(748)
    L(752) L(756) L(760) L(764) L(776) L(780) L(784) L(788) L(800) L(807) L(818) L(826) L(834) L(840) L(858)
    L(860) L(882) L(886) L(901) L(931) L(932) L(933) L(934) L(936) L(937) L(938) L(940) L(941) L(943) L(944)
    L(946) L(947) L(948) L(949) L(950) L(951) L(952) L(953) L(955) L(956) L(957) L(958) L(959) L(960) L(961)
    L(962) L(963) L(964) L(965) L(967) L(968) L(969) L(970) L(971) L(972) L(973) L(974) L(975) L(976) L(977)
    L(978) L(979) L(980) L(981) L(984) L(985) L(986) L(990) L(994) L(997) L(999) L(1000)
};
#undef L

/* Whether this is a listed currency code. */
static inline int is_currency(uint32_t code) { return code <= LAST_CURRENCY && CURRENCY[code]; }

/* Whether there is a unit type of this number. */
static inline int is_unit(uint32_t unit) { return unit <= LAST_PLAIN || unit - MONEY <= LAST_MONEY - MONEY; }

/* Judges the mark at a place, item by item. */
static Verdict exact_mark(const uint8_t *bytes, size_t length, size_t at) {
    if (at >= length) {
        return verdict(1, length);
    }
    const uint32_t unit = bytes[at];
    if (!is_unit(unit)) {
        return verdict(11, at);
    }
    at++;
    if (unit >= MONEY) {
        if (length - at < 2) {
            return verdict(1, length);
        }
        if (!is_currency(two_bytes(bytes + at))) {
            return verdict(19, at);
        }
        at += 2;
    }
    if (unit == MONEY) {
        return verdict(0, at);
    }
    if (at >= length) {
        return verdict(1, length);
    }
    return bytes[at] > LAST_DISPLAY[unit] ? verdict(12, at) : verdict(0, at + 1);
}

/* Judges so many marks from a place on, one by one. */
static Verdict exact_marks(const uint8_t *bytes, size_t length, size_t at, size_t marks) {
    Verdict mark = verdict(0, at);
    while (marks > 0 && mark.number == 0) {
        mark = exact_mark(bytes, length, mark.place);
        marks--;
    }
    return mark;
}

/* Judges so many marks from a place on: where four bytes are left, one test of room serves a whole mark. */
static inline Verdict judge_marks(const uint8_t *bytes, size_t length, size_t at, size_t marks) {
    while (marks > 0 && length - at >= 4) {
        const uint32_t unit = bytes[at];
        if (unit <= LAST_PLAIN) {
            if (UNLIKELY(bytes[at + 1] > LAST_DISPLAY[unit])) {
                break;
            }
            at += 2;
        } else if (UNLIKELY(!is_unit(unit) || !is_currency(two_bytes(bytes + at + 1)))) {
            break;
        } else if (unit == MONEY) {
            at += 3;
        } else {
            if (UNLIKELY(bytes[at + 3] > LAST_DISPLAY[unit])) {
                break;
            }
            at += 4;
        }
        marks--;
    }
    return marks == 0 ? verdict(0, at) : exact_marks(bytes, length, at, marks);
}

#endif
