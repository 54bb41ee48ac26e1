/* Damaged dumps: bytes changed, cut, added, doubled and removed, fields of other values, and pieces of two dumps joined. */

/* At most so many damages are done to a dump, each of which adds at most the other dump, or so many bytes. */
enum { MOST_DAMAGES = 4, MOST_ADDED = 8 };

/* A place in a dump, half the time in its first 32 bytes. */
static size_t spot(const bytes *dump) {
    size_t among = any() % 2 && dump->len > 32 ? 32 : dump->len;
    return among ? (size_t)(any() % among) : 0;
}

static void change_field(bytes *dump) {
    size_t at = any() % 4 ? 12 + 4 * (size_t)(any() % 3) : spot(dump);
    uint32_t value = some();
    if (at + sizeof value <= dump->len) memcpy(dump->at + at, &value, sizeof value);
}

/* The bytes up to a place, and those of the other dump from a place on, which is the same half the time. */
static void join(bytes *dump, const bytes *other) {
    size_t at = spot(dump), from = any() % 2 && at < other->len ? at : spot(other);
    memcpy(dump->at + at, other->at + from, other->len - from);
    dump->len = at + other->len - from;
}

static void damage(bytes *dump, const bytes *other) {
    size_t at = spot(dump), left = dump->len - at, len = 1 + (size_t)(any() % MOST_ADDED);
    if (len > left) len = left;
    switch (any() % 12) {
    case 0:
        if (left) dump->at[at] = (uint8_t)some();
        break;
    case 1:
        dump->len = at;
        break;
    case 2:
        dump->len -= len;
        break;
    case 3:
        for (size_t i = 0; i < MOST_ADDED && (i == 0 || any() % 2); i++) dump->at[dump->len++] = (uint8_t)some();
        break;
    case 4:
        memmove(dump->at + at + len, dump->at + at, left);
        dump->len += len;
        break;
    case 5:
        memmove(dump->at + at, dump->at + at + len, left - len);
        dump->len -= len;
        break;
    case 6:
        change_field(dump);
        break;
    case 7:
        join(dump, other);
        break;
    default:
        if (left) dump->at[at] ^= (uint8_t)(1U << any() % 8);
    }
}

/* The damaged dump of a number: half of them are damaged once. The other dump is the one that is damaged in a quarter. */
static bytes damaged_dump(bytes one, bytes other, uint64_t seed, uint64_t turn) {
    restart(seed, turn);
    if (any() % 4 == 0) {
        const bytes first = one;
        one = other, other = first;
    }
    bytes dump = {(uint8_t *)room(one.len + MOST_DAMAGES * (other.len + MOST_ADDED)), one.len}, exact;
    memcpy(dump.at, one.at, one.len);
    for (uint64_t left = any() % 2 ? 1 : 1 + any() % MOST_DAMAGES; left > 0; left--) damage(&dump, &other);
    exact.at = (uint8_t *)room(dump.len);
    exact.len = dump.len;
    memcpy(exact.at, dump.at, dump.len);
    free(dump.at);
    return exact;
}
