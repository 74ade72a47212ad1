#include "input.h"

#include <string.h>

uint8_t take(struct input *in) {
    if (in->left == 0) {
        return 0;
    }
    in->left--;
    return *in->at++;
}

uint64_t take_number(struct input *in, int bytes) {
    uint64_t number = 0;
    for (int i = 0; i < bytes; i++) {
        number = number << 8 | take(in);
    }
    return number;
}

uint64_t take_edge(struct input *in) {
    static const uint64_t edges[16] = {
        0, 1, 2, 63, 64, 65, 128, 3600, 3601, 8192, 1000000, 1000001,
        UINT32_MAX, UINT64_C(1) << 32, UINT64_MAX, UINT64_C(1) << 63,
    };
    uint8_t how = take(in);
    if (how < 128) {
        /* The edge itself, one or two above it, or one below. */
        return edges[how % 16] + (how >> 4) % 3 - (how >> 4) / 3 % 2;
    }
    return take_number(in, 1 + how % 8);
}

size_t take_length(struct input *in, size_t exact, size_t most) {
    uint8_t how = take(in);
    size_t length = exact;
    if (how >= 240) {
        length = take_number(in, 2);
    } else if (how >= 200) {
        length = exact + how - 200;
    } else if (how >= 160) {
        size_t less = how - 160u;
        length = exact - (less < exact ? less : exact);
    } else if (how >= 64) {
        length = how - 64;
    }
    return length < most ? length : most;
}

void put(uint8_t *at, uint64_t number, int bytes) {
    for (int i = 0; i < bytes; i++) {
        at[i] = (uint8_t)(number >> 8 * (bytes - 1 - i));
    }
}

uint64_t get(const uint8_t *at, int bytes) {
    struct input in = {at, (size_t)bytes};
    return take_number(&in, bytes);
}

size_t damage(struct input *in, uint8_t *bytes, size_t length, size_t room) {
    uint8_t how = take(in);
    size_t at = length == 0 ? 0 : take_number(in, 2) % length;

    if (how % 8 == 6 || length == 0) {
        size_t longer = length + 1 + take(in) % 16;
        longer = longer < room ? longer : room;
        for (size_t i = length; i < longer; i++) {
            bytes[i] = take(in);
        }
        return longer;
    }
    switch (how % 8) {
    case 0:
    case 1:
        bytes[at] = take(in);
        break;
    case 2:
        bytes[at] ^= (uint8_t)(1 << (how / 8 % 8));
        break;
    case 3:
        bytes[at] = (uint8_t)(bytes[at] + (how & 8 ? 1 : -1));
        break;
    case 4:
        for (; at < length && how != 0; at++, how /= 2) {
            bytes[at] = how & 1 ? 0xff : 0;
        }
        break;
    case 5:
        return at;
    default:
        memmove(bytes + at, bytes + at + 1, length - at - 1);
        return length - 1;
    }
    return length;
}

size_t forge(struct input *in, uint64_t *point, size_t length, size_t room) {
    uint8_t how = take(in);
    if (how >= 240) {
        size_t other = take_length(in, length, room);
        for (size_t i = length; i < other; i++) {
            point[i] = 0;
        }
        return other;
    }
    if (length != 0) {
        /* The header and the first blocks are where the meaning is. */
        size_t at = (how < 120 ? take(in) : take_number(in, 2)) % length;
        point[at] = how % 4 == 0 ? point[at] + 1 : how % 4 == 1 ? point[at] - 1 : take_edge(in);
    }
    return length;
}
