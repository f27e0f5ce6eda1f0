/* The same work in the plainest way, as a limit: no checks, what is handed over is whole and fits. */
#include <stddef.h>
#include <stdint.h>
#include <string.h>

/* ---- text (TS 23.038 §6.2.1) */

static const uint16_t ALPHABET[128] = {
    '@', 0xa3, '$', 0xa5, 0xe8, 0xe9, 0xf9, 0xec, 0xf2, 0xc7, '\n', 0xd8, 0xf8, '\r', 0xc5, 0xe5,
    0x394, '_', 0x3a6, 0x393, 0x39b, 0x3a9, 0x3a0, 0x3a8, 0x3a3, 0x398, 0x39e, 0x1b, 0xc6, 0xe6, 0xdf, 0xc9,
    ' ', '!', '"', '#', 0xa4, '%', '&', '\'', '(', ')', '*', '+', ',', '-', '.', '/',
    '0', '1', '2', '3', '4', '5', '6', '7', '8', '9', ':', ';', '<', '=', '>', '?',
    0xa1, 'A', 'B', 'C', 'D', 'E', 'F', 'G', 'H', 'I', 'J', 'K', 'L', 'M', 'N', 'O',
    'P', 'Q', 'R', 'S', 'T', 'U', 'V', 'W', 'X', 'Y', 'Z', 0xc4, 0xd6, 0xd1, 0xdc, 0xa7,
    0xbf, 'a', 'b', 'c', 'd', 'e', 'f', 'g', 'h', 'i', 'j', 'k', 'l', 'm', 'n', 'o',
    'p', 'q', 'r', 's', 't', 'u', 'v', 'w', 'x', 'y', 'z', 0xe4, 0xf6, 0xf1, 0xfc, 0xe0,
};
static const uint16_t EXTENSION[10][2] = {
    {0x0a, 0x0c}, {0x14, '^'}, {0x28, '{'}, {0x29, '}'}, {0x2f, '\\'},
    {0x3c, '['}, {0x3d, '~'}, {0x3e, ']'}, {0x40, '|'}, {0x65, 0x20ac},
};

static uint16_t escaped[128];  /* the character of a code after an escape */
static uint8_t code[0x20b0];   /* the code of a character; 128 more after an escape */

void plain_tables(void)
{
    for (size_t i = 0; i < 128; i++)
        code[ALPHABET[i]] = i;
    for (size_t i = 0; i < 10; i++) {
        escaped[EXTENSION[i][0]] = EXTENSION[i][1];
        code[EXTENSION[i][1]] = 128 + EXTENSION[i][0];
    }
}

/* Bits that are packed, lowest first. */
struct bits {
    uint8_t *out;
    uint32_t held;
    unsigned count;
};

static inline void put_septet(struct bits *b, uint32_t septet)
{
    b->held |= septet << b->count;
    b->count += 7;
    if (b->count >= 8) {
        *b->out++ = b->held;
        b->held >>= 8;
        b->count -= 8;
    }
}

static inline void put_character(struct bits *b, uint32_t character)
{
    uint8_t c = code[character];
    if (c >= 128)
        put_septet(b, 0x1b);
    put_septet(b, c % 128);
}

static inline void put_text(struct bits *b, const uint8_t *text, const uint8_t *end)
{
    while (text < end) {
        uint32_t c = *text++;
        if (c >= 0xe0) {
            c = c % 16 * 4096 + text[0] % 64 * 64 + text[1] % 64;
            text += 2;
        } else if (c >= 0xc0) {
            c = c % 32 * 64 + *text++ % 64;
        }
        put_character(b, c);
    }
    if (b->count > 0)
        *b->out++ = b->held;
}

size_t plain_pack(const uint8_t *text, size_t length, uint8_t *out)
{
    struct bits b = {out, 0, 0};
    put_text(&b, text, text + length);
    return b.out - out;
}

/* ASCII text in parts of 153 septets: UDL, a header with one fill bit behind it, the septets. */
size_t plain_concatenate(const uint8_t *text, size_t length, uint8_t reference, uint8_t *out)
{
    struct bits b = {out, 0, 0};
    size_t parts = (length + 152) / 153;
    for (size_t i = 0; i < parts; i++) {
        size_t at = i * 153, n = length - at < 153 ? length - at : 153;
        const uint8_t front[7] = {7 + n, 5, 0, 3, reference, parts, i + 1};
        memcpy(b.out, front, 7);
        b.out += 7;
        b.held = 0;
        b.count = 1;
        put_text(&b, text + at, text + at + n);
    }
    return b.out - out;
}

/* Septets that are taken, with escapes. */
struct septets {
    const uint8_t *data;
    uint32_t held;
    unsigned count;
};

static inline uint32_t next_septet(struct septets *s)
{
    if (s->count < 7) {
        s->held |= (uint32_t)*s->data++ << s->count;
        s->count += 8;
    }
    uint32_t septet = s->held % 128;
    s->held >>= 7;
    s->count -= 7;
    return septet;
}

static inline uint32_t next_character(struct septets *s, size_t *left)
{
    uint32_t septet = next_septet(s);
    (*left)--;
    if (septet != 0x1b)
        return ALPHABET[septet];
    (*left)--;
    return escaped[next_septet(s)];
}

/* Septets after fill bits, as text. */
static inline size_t unpack_after(const uint8_t *data, unsigned fill, size_t count, uint8_t *text)
{
    struct septets s = {data, 0, 0};
    uint8_t *to = text;
    if (fill > 0) {
        s.held = *s.data++ >> fill;
        s.count = 8 - fill;
    }
    while (count > 0) {
        uint32_t c = next_character(&s, &count);
        if (c < 0x80) {
            *to++ = c;
        } else if (c < 0x800) {
            *to++ = 0xc0 + c / 64;
            *to++ = 0x80 + c % 64;
        } else {
            *to++ = 0xe0 + c / 4096;
            *to++ = 0x80 + c / 64 % 64;
            *to++ = 0x80 + c % 64;
        }
    }
    return to - text;
}

size_t plain_unpack(const uint8_t *data, size_t count, uint8_t *text)
{
    return unpack_after(data, 0, count, text);
}

size_t plain_ucs2_to_gsm7(const uint8_t *ucs2, size_t length, uint8_t *out)
{
    struct bits b = {out, 0, 0};
    for (size_t i = 0; i < length; i += 2)
        put_character(&b, ucs2[i] * 256 + ucs2[i + 1]);
    if (b.count > 0)
        *b.out++ = b.held;
    return b.out - out;
}

size_t plain_gsm7_to_ucs2(const uint8_t *data, size_t count, uint8_t *out)
{
    struct septets s = {data, 0, 0};
    uint8_t *to = out;
    while (count > 0) {
        uint32_t c = next_character(&s, &count);
        *to++ = c / 256;
        *to++ = c;
    }
    return to - out;
}

/* ---- digits */

static size_t put_digits(const uint8_t *text, size_t length, uint8_t *out)
{
    size_t n = 0;
    for (size_t i = 0; i < length; i += 2)
        out[n++] = text[i] - '0' + (i + 1 < length ? text[i + 1] - '0' : 15) * 16;
    return n;
}

size_t plain_address(uint8_t ton, uint8_t npi, const uint8_t *text, size_t length, uint8_t *out)
{
    out[0] = length;
    out[1] = 128 + ton * 16 + npi;
    return 2 + put_digits(text, length, out + 2);
}

size_t plain_write_relay_address(uint8_t ton, uint8_t npi, const uint8_t *text, size_t length, uint8_t *out)
{
    out[0] = 1 + (length + 1) / 2;
    out[1] = 128 + ton * 16 + npi;
    return 2 + put_digits(text, length, out + 2);
}

size_t plain_read_relay_address(const uint8_t *data, uint8_t *digits)
{
    size_t n = 0;
    for (size_t i = 2; i < 1 + (size_t)data[0]; i++) {
        digits[n++] = '0' + data[i] % 16;
        if (data[i] / 16 != 15)
            digits[n++] = '0' + data[i] / 16;
    }
    return n;
}

size_t plain_digits(uint8_t year, uint8_t month, uint8_t day, uint8_t hour, uint8_t minute, uint8_t second,
                    int8_t zone, uint8_t *digits)
{
    const uint8_t values[7] = {year, month, day, hour, minute, second, zone < 0 ? -zone : zone};
    for (size_t i = 0; i < 7; i++) {
        digits[2 * i] = '0' + values[i] / 10;
        digits[2 * i + 1] = '0' + values[i] % 10;
    }
    if (zone < 0)
        digits[12] += digits[12] < '2' ? 8 : 15;
    return 14;
}

/* ---- messages */

struct message {
    uint8_t first, reference, ton, npi, pid, dcs, period, udl, status, indicator;
    size_t address_length, length, header_length, text_length;
    uint8_t address[290], time[14], later[14], user_data[255], header[255], text[510];
};

static const uint8_t *read_digits(const uint8_t *data, size_t count, uint8_t *digits)
{
    static const uint8_t characters[16] = "0123456789ABCDEF";
    for (size_t i = 0; i < count; i += 2) {
        digits[i] = characters[*data % 16];
        if (i + 1 < count)
            digits[i + 1] = characters[*data / 16];
        data++;
    }
    return data;
}

static const uint8_t *read_address(const uint8_t *data, struct message *m)
{
    m->address_length = data[0];
    m->ton = data[1] / 16 % 8;
    m->npi = data[1] % 16;
    return read_digits(data + 2, data[0], m->address);
}

/* From TP-UDL on. */
static void read_user_data(const uint8_t *data, struct message *m)
{
    m->udl = *data++;
    m->length = m->dcs / 4 % 4 == 0 ? (m->udl * 7 + 7) / 8 : m->udl;
    memcpy(m->user_data, data, m->length);
}

void plain_read_deliver(const uint8_t *data, struct message *m)
{
    m->first = data[0];
    data = read_address(data + 1, m);
    m->pid = data[0];
    m->dcs = data[1];
    read_user_data(read_digits(data + 2, 14, m->time), m);
}

/* The text has the header before it. */
void plain_read_submit(const uint8_t *data, struct message *m)
{
    m->first = data[0];
    m->reference = data[1];
    data = read_address(data + 2, m);
    m->pid = data[0];
    m->dcs = data[1];
    m->period = data[2];
    read_user_data(data + 3, m);
    size_t n = m->first & 64 ? 1 + m->user_data[0] : 0;
    m->header_length = n;
    memcpy(m->header, m->user_data, n);
    if (m->dcs / 4 % 4 == 0) {
        size_t front = (n * 8 + 6) / 7;
        memcpy(m->text, m->user_data, n);
        m->text_length = n + unpack_after(m->user_data + n, front * 7 - n * 8, m->udl - front, m->text + n);
    } else {
        m->text_length = m->length;
        memcpy(m->text, m->user_data, m->length);
    }
}

void plain_read_status_report(const uint8_t *data, struct message *m)
{
    m->first = data[0];
    m->reference = data[1];
    data = read_address(data + 2, m);
    data = read_digits(data, 14, m->time);
    m->status = *read_digits(data, 14, m->later);
}

void plain_read_submit_report(const uint8_t *data, struct message *m)
{
    m->first = data[0];
    m->indicator = data[1];
    data = read_digits(data + 2, 14, m->time);
    m->pid = data[0];
    m->dcs = data[1];
    read_user_data(data + 2, m);
}

void plain_read_deliver_report(const uint8_t *data, struct message *m)
{
    m->first = data[0];
    m->indicator = data[1];
    m->pid = data[2];
    m->dcs = data[3];
    read_user_data(data + 4, m);
}

static uint8_t *write_address(const struct message *m, uint8_t *out)
{
    return out + plain_address(m->ton, m->npi, m->address, m->address_length, out);
}

static uint8_t *write_user_data(const struct message *m, uint8_t *out)
{
    *out++ = m->udl;
    memcpy(out, m->user_data, m->length);
    return out + m->length;
}

size_t plain_write_deliver(const struct message *m, uint8_t *out)
{
    uint8_t *to = out;
    *to++ = m->first;
    to = write_address(m, to);
    *to++ = m->pid;
    *to++ = m->dcs;
    to += put_digits(m->time, 14, to);
    return write_user_data(m, to) - out;
}

size_t plain_write_submit(const struct message *m, uint8_t *out)
{
    uint8_t *to = out;
    *to++ = m->first;
    *to++ = m->reference;
    to = write_address(m, to);
    *to++ = m->pid;
    *to++ = m->dcs;
    *to++ = m->period;
    return write_user_data(m, to) - out;
}

size_t plain_write_status_report(const struct message *m, uint8_t *out)
{
    uint8_t *to = out;
    *to++ = m->first;
    *to++ = m->reference;
    to = write_address(m, to);
    to += put_digits(m->time, 14, to);
    to += put_digits(m->later, 14, to);
    *to++ = m->status;
    return to - out;
}

size_t plain_write_submit_report(const struct message *m, uint8_t *out)
{
    uint8_t *to = out;
    *to++ = m->first;
    *to++ = m->indicator;
    to += put_digits(m->time, 14, to);
    *to++ = m->pid;
    *to++ = m->dcs;
    return write_user_data(m, to) - out;
}

size_t plain_write_deliver_report(const struct message *m, uint8_t *out)
{
    uint8_t *to = out;
    *to++ = m->first;
    *to++ = m->indicator;
    *to++ = m->pid;
    *to++ = m->dcs;
    return write_user_data(m, to) - out;
}

/* ---- elements of a header */

size_t plain_read_elements(const uint8_t *header, uint8_t *identifiers, uint8_t *lengths, uint8_t *values)
{
    size_t count = 0;
    const uint8_t *at = header + 1, *end = at + header[0];
    while (at < end) {
        identifiers[count] = *at++;
        uint8_t n = lengths[count++] = *at++;
        for (size_t i = 0; i < n; i++)
            *values++ = *at++;
    }
    return count;
}

/* In the order given, which is that of rising identifiers. */
size_t plain_write_elements(size_t count, const uint8_t *identifiers, const uint8_t *lengths, const uint8_t *values,
                            uint8_t *out)
{
    size_t to = 1;
    for (size_t i = 0; i < count; i++) {
        out[to++] = identifiers[i];
        out[to++] = lengths[i];
        for (size_t k = 0; k < lengths[i]; k++)
            out[to++] = *values++;
    }
    out[0] = to - 1;
    return to;
}

/* ---- log blocks by column: string after string, each octet to or from the place where its column goes on */

static size_t put_number(uint8_t *out, size_t at, size_t n)
{
    while (n >= 128) {
        out[at++] = 128 + n % 128;
        n /= 128;
    }
    out[at++] = n;
    return at;
}

static size_t number_at(const uint8_t *block, size_t *at)
{
    size_t n = 0, weight = 1;
    while (block[*at] >= 128) {
        n += (block[(*at)++] - 128) * weight;
        weight *= 128;
    }
    return n + block[(*at)++] * weight;
}

/* Where each column starts; the last is the block's end. */
static void find_columns(const size_t *lengths, size_t count, size_t from, size_t place[256])
{
    size_t ending[256] = {0}, left = count;
    for (size_t i = 0; i < count; i++)
        ending[lengths[i]]++;
    for (size_t k = 0; k < 256; k++) {
        place[k] = from;
        left -= ending[k];
        from += left;
    }
}

size_t plain_to_columns(const uint8_t *octets, const size_t *lengths, size_t count, uint8_t *out)
{
    size_t place[256], to = put_number(out, 0, count);
    for (size_t i = 0; i < count; i++)
        to = put_number(out, to, lengths[i]);
    find_columns(lengths, count, to, place);
    to = place[255];
    for (size_t i = 0; i < count; i++)
        for (size_t k = 0; k < lengths[i]; k++)
            out[place[k]++] = *octets++;
    return to;
}

size_t plain_from_columns(const uint8_t *block, uint8_t *octets, size_t *lengths)
{
    size_t place[256], from = 0;
    const uint8_t *start = octets;
    size_t count = number_at(block, &from);
    for (size_t i = 0; i < count; i++)
        lengths[i] = number_at(block, &from);
    find_columns(lengths, count, from, place);
    for (size_t i = 0; i < count; i++)
        for (size_t k = 0; k < lengths[i]; k++)
            *octets++ = block[place[k]++];
    return octets - start;
}
