// The same work as `midibridge convert`, from a byte line or cable 0 to cable 0, cable 1 or a byte line, and between a byte line and
// FireWire's port 0 or BLE-MIDI packets of 20 bytes, and from these to the like, in plain C and with the same reads and writes: read at most 512 bytes, convert them, write all that they give,
// read on; to FireWire, where a byte is a packet, write whenever fewer than 126 of 1,024 bytes are free, to BLE-MIDI fewer than 108.
// bench/bridge.py compiles and times it. Its words are `din usb`, `din din`, `usb usb`, `usb din`, `din fw`, `fw din`, `din ble`,
// `ble din` and `ble ble`; a cable that is written after one is cable 1.
#include <string.h>
#include <unistd.h>

typedef unsigned char byte;

struct state {
  byte status;      // of the message that is begun, or that runs; 0: none
  byte first;       // its first data byte, where has_first
  byte written;     // to DIN: the status that runs in what was written; 0: none
  byte held[2];     // to USB: bytes of the open SysEx that fill no packet yet
  int has_first, in_sysex, waiting;
  byte cable;       // that is written, in the high half
  byte head, place; // of the packet under way: its first byte, and how many bytes of it were read
  size_t used;      // bytes in the output
  byte dbc;         // to FireWire: the count of the next packet
  // from FireWire: the frame under way
  enum { HIGH, LOW, HEADER, BLOCKS, REST } part;
  byte header[8];
  unsigned size, left;          // bytes of its content, and how many of the part under way are to come
  unsigned block, blocks;       // the number of the block under way, and how many there are
  unsigned quadlets, at, midis; // of the block: quadlets behind it, bytes of the quadlet under way, and MIDI conformant ones
  byte own;                     // bytes of the quadlet that the port still carries
  // from BLE-MIDI: the packet under way, and the clock
  enum { LENGTH, SECOND, HEAD, SKIP, INSIDE, STAMPED } where;
  byte upper, low, has_low, channel; // the stamps' upper six bits, the last one's lower seven, and the status that runs on
  unsigned long long moment;
  // to BLE-MIDI: the packet under way behind its header
  byte content[20], filled, runs, has_stamp, fallen;
  unsigned long long oldest, last, latest; // moments of its first and last stamp, and of its last spelling
};

static byte out[4096];

static inline void put4(struct state *s, byte a, byte b, byte c, byte d) {
  byte *to = out + s->used;
  to[0] = a | s->cable, to[1] = b, to[2] = c, to[3] = d;
  s->used += 4;
}

static inline int is_one(byte status) { return (status >= 0xc0 && status < 0xe0) || status == 0xf1 || status == 0xf3; }

// Short messages, and the bytes of a SysEx, as USB-MIDI packets.
static inline void message_usb(struct state *s, byte status, byte a, byte b) {
  put4(s, status < 0xf0 ? status >> 4 : status == 0xf2 ? 3 : status == 0xf6 ? 5 : 2, status, a, b);
}
static inline void real_time_usb(struct state *s, byte b) { put4(s, 15, b, 0, 0); }
static inline void byte_usb(struct state *s, byte b) {
  if (s->waiting < 2) {
    s->held[s->waiting++] = b;
  } else {
    put4(s, 4, s->held[0], s->held[1], b);
    s->waiting = 0;
  }
}
static inline void start_usb(struct state *s) { s->waiting = 0, byte_usb(s, 0xf0); }
static inline void end_usb(struct state *s) {
  if (s->waiting == 0) put4(s, 5, 0xf7, 0, 0);
  else if (s->waiting == 1) put4(s, 6, s->held[0], 0xf7, 0);
  else put4(s, 7, s->held[0], s->held[1], 0xf7);
  s->waiting = 0;
}
static inline void abort_usb(struct state *s) {
  for (int i = 0; i < s->waiting; i++) put4(s, 15, s->held[i], 0, 0);
  s->waiting = 0;
}

// The same as bytes of a DIN line.
static inline void message_din(struct state *s, byte status, byte a, byte b) {
  if (status != s->written) out[s->used++] = status;
  if (status != 0xf6) out[s->used++] = a;
  if (status != 0xf6 && !is_one(status)) out[s->used++] = b;
  s->written = status < 0xf0 ? status : 0;
}
static inline void byte_din(struct state *s, byte b) { out[s->used++] = b; }
static inline void start_din(struct state *s) { s->written = 0, byte_din(s, 0xf0); }
static inline void end_din(struct state *s) { byte_din(s, 0xf7); }
static inline void abort_din(struct state *s) { (void)s; }

static int write_out(struct state *s) {
  for (size_t done = 0; done < s->used;) {
    ssize_t count = write(1, out + done, s->used - done);
    if (count <= 0) return 0;
    done += (size_t)count;
  }
  s->used = 0;
  return 1;
}

// The same as FireWire packets of port 0: one a byte, the byte in the first of eight blocks, and no status left out.
static const byte packet[42] = {0, 40, 0, 1, 0, 0, 0x90, 2, 0xff, 0xff, 0x81, 0, 0, 0, 0x80, 0, 0, 0, 0x80, 0, 0, 0,
                                0x80, 0, 0, 0, 0x80, 0, 0, 0, 0x80, 0, 0, 0, 0x80, 0, 0, 0, 0x80, 0, 0, 0};
static inline void byte_fire(struct state *s, byte b) {
  byte *to = out + s->used;
  memcpy(to, packet, sizeof packet);
  to[5] = s->dbc, to[11] = b;
  s->dbc += 8, s->used += sizeof packet;
}
static inline void message_fire(struct state *s, byte status, byte a, byte b) {
  byte_fire(s, status);
  if (status != 0xf6) byte_fire(s, a);
  if (status != 0xf6 && !is_one(status)) byte_fire(s, b);
}
static inline void start_fire(struct state *s) { byte_fire(s, 0xf0); }
static inline void end_fire(struct state *s) { byte_fire(s, 0xf7); }

// The same as BLE-MIDI packets of at most 20 bytes. A packet ends before what it has no room for, what lies 128 ms behind its last
// stamp, and a second fall of the stamps' lower seven bits.
static inline void end_packet(struct state *s) {
  if (s->filled == 0) return;
  byte *to = out + s->used;
  to[0] = 0, to[1] = s->filled + 1, to[2] = 0x80 | ((s->has_stamp ? s->oldest : s->latest) >> 7 & 63);
  memcpy(to + 3, s->content, s->filled);
  s->used += 3u + s->filled;
  s->filled = s->runs = s->has_stamp = s->fallen = 0;
}
static inline int falls(struct state *s) { return s->has_stamp && (s->moment & 127) < (s->last & 127); }
static inline void make_room(struct state *s, unsigned bytes, int stamped) {
  if (s->filled && (1 + s->filled + bytes > 20 || (stamped && s->has_stamp && s->moment >= s->last + 128) ||
                    (stamped && s->fallen && falls(s))))
    end_packet(s);
}
static inline void stamp_ble(struct state *s) {
  s->fallen |= falls(s);
  if (!s->has_stamp) s->oldest = s->moment, s->has_stamp = 1;
  s->last = s->latest = s->moment;
  s->content[s->filled++] = 0x80 | (s->moment & 127);
}
static inline void message_ble(struct state *s, byte status, byte a, byte b) {
  unsigned data = status == 0xf6 ? 0 : is_one(status) ? 1 : 2;
  make_room(s, 1 + (s->runs != status) + data, 1);
  stamp_ble(s);
  if (s->runs != status) s->content[s->filled++] = status;
  if (data > 0) s->content[s->filled++] = a;
  if (data > 1) s->content[s->filled++] = b;
  s->runs = status < 0xf0 ? status : 0;
}
static inline void status_ble(struct state *s, byte b) {
  make_room(s, 2, 1);
  stamp_ble(s);
  s->content[s->filled++] = b;
}
static inline void real_time_ble(struct state *s, byte b) { status_ble(s, b); }
static inline void start_ble(struct state *s) { status_ble(s, 0xf0), s->runs = 0; }
static inline void end_ble(struct state *s) { status_ble(s, 0xf7), s->runs = 0; }
static inline void byte_ble(struct state *s, byte b) {
  make_room(s, 1, 0);
  s->content[s->filled++] = b, s->latest = s->moment, s->runs = 0;
}

// One byte of a byte line.
#define TAKE(s, b, message, real_time, start, data, end, broken)                        \
  if (b < 0x80) {                                                                      \
    if (s->in_sysex) {                                                                 \
      data(s, b);                                                                      \
    } else if (s->status == 0) { /* belongs to nothing */                              \
    } else if (!s->has_first && !is_one(s->status)) {                                  \
      s->first = b, s->has_first = 1;                                                  \
    } else {                                                                           \
      if (s->has_first) message(s, s->status, s->first, b);                            \
      else message(s, s->status, b, 0);                                                \
      s->has_first = 0;                                                                \
      if (s->status >= 0xf0) s->status = 0;                                            \
    }                                                                                  \
  } else if (b >= 0xf8) {                                                              \
    if (b != 0xf9 && b != 0xfd) real_time(s, b);                                       \
  } else {                                                                             \
    if (s->in_sysex && b == 0xf7) end(s);                                              \
    else if (s->in_sysex) broken(s);                                                   \
    s->in_sysex = b == 0xf0, s->has_first = 0, s->status = b;                          \
    if (b == 0xf0) start(s);                                                           \
    if (b == 0xf6) message(s, b, 0, 0);                                                \
    if (b == 0xf0 || (b >= 0xf4 && b <= 0xf7)) s->status = 0;                          \
  }

// Hands the buffer on where it has less room than is said; 0 where a piece's output fits.
#define CONVERT(name, room, message, real_time, start, data, end, broken)               \
  static void name(struct state *kept, const byte *piece, size_t count) {              \
    struct state now = *kept, *s = &now;                                               \
    for (size_t i = 0; i < count; i++) {                                               \
      byte b = piece[i];                                                               \
      TAKE(s, b, message, real_time, start, data, end, broken)                         \
      if (room && s->used > 1024 - room && !write_out(s)) _exit(4);                    \
    }                                                                                  \
    *kept = now;                                                                       \
  }

CONVERT(to_usb, 0, message_usb, real_time_usb, start_usb, byte_usb, end_usb, abort_usb)
CONVERT(to_din, 0, message_din, byte_din, start_din, byte_din, end_din, abort_din)
CONVERT(to_fire, 126, message_fire, byte_fire, start_fire, byte_fire, end_fire, abort_din)
CONVERT(to_ble, 108, message_ble, real_time_ble, start_ble, byte_ble, end_ble, abort_din)

// How many bytes of a packet its number uses, and the bytes of cable 0's packets as a byte line.
static const byte uses[16] = {0, 0, 2, 3, 3, 1, 2, 3, 3, 3, 3, 3, 2, 2, 3, 1};

#define CONVERT_PACKETS(name, message, real_time, start, data, end, broken)             \
  static void name(struct state *kept, const byte *piece, size_t count) {              \
    struct state now = *kept, *s = &now;                                               \
    for (size_t i = 0; i < count; i++) {                                               \
      byte b = piece[i];                                                               \
      if (s->place == 0) {                                                             \
        s->head = b, s->place = 1;                                                     \
      } else {                                                                         \
        if (s->head < 16 && s->place <= uses[s->head]) {                               \
          TAKE(s, b, message, real_time, start, data, end, broken)                     \
        }                                                                              \
        s->place = (s->place + 1) & 3;                                                 \
      }                                                                                \
    }                                                                                  \
    *kept = now;                                                                       \
  }

CONVERT_PACKETS(packets_to_usb, message_usb, real_time_usb, start_usb, byte_usb, end_usb, abort_usb)
CONVERT_PACKETS(packets_to_din, message_din, byte_din, start_din, byte_din, end_din, abort_din)

// A header that stands whole: how many blocks follow it, of packets with data.
static inline void head_fire(struct state *s) {
  byte *h = s->header;
  unsigned size = h[0] < 0x40 && h[4] == 0x90 && h[5] != 0xff ? 4u * h[1] : 0;
  s->blocks = size ? (s->size - 8) / size : 0;
  s->left = s->size - 8 - s->blocks * size;
  s->block = s->quadlets = s->at = s->midis = s->own = 0;
  s->part = s->blocks ? BLOCKS : s->left ? REST : HIGH;
}

// The first byte of a quadlet: port 0 has the first MIDI conformant quadlet of a block whose count is a multiple of 8.
static inline void label_fire(struct state *s, byte b) {
  int midi = (b & 0xfc) == 0x80;
  s->own = midi && s->midis == 0 && ((s->header[3] + s->block) & 7) == 0 ? b & 3 : 0;
  s->midis += midi;
}
static inline void quadlet_fire(struct state *s) {
  s->at = 0;
  if (++s->quadlets < s->header[1]) return;
  s->quadlets = s->midis = 0;
  if (++s->block == s->blocks) s->part = s->left ? REST : HIGH;
}

static void fire_to_din(struct state *kept, const byte *piece, size_t count) {
  struct state now = *kept, *s = &now;
  for (size_t i = 0; i < count; i++) {
    byte b = piece[i];
    switch (s->part) {
    case HIGH: s->size = 256u * b, s->part = LOW; break;
    case LOW:
      s->size += b, s->at = 0, s->left = s->size;
      s->part = s->size >= 8 ? HEADER : s->size ? REST : HIGH;
      break;
    case HEADER:
      s->header[s->at++] = b;
      if (s->at == 8) head_fire(s);
      break;
    case BLOCKS:
      if (s->at == 0) {
        label_fire(s, b);
      } else if (s->own) {
        s->own--;
        TAKE(s, b, message_din, byte_din, start_din, byte_din, end_din, abort_din)
      }
      if (++s->at == 4) quadlet_fire(s);
      break;
    case REST:
      if (--s->left == 0) s->part = HIGH;
      break;
    }
  }
  *kept = now;
}

// A stamp's lower seven bits.
static inline void low_ble(struct state *s, byte low) {
  if (s->has_low && low < s->low) s->upper = (s->upper + 1) & 63;
  s->low = low, s->has_low = 1;
  s->moment += (((unsigned)s->upper << 7 | low) - s->moment) & 8191;
}
static inline void status_in(struct state *s, byte b) {
  if (b < 0xf0) s->channel = b;
  else if (b == 0xf0 || b == 0xf4 || b == 0xf5 || b == 0xf7) s->channel = 0;
}
static inline void close_packet(struct state *s) {
  if (!s->in_sysex) s->status = s->has_first = 0;
  s->where = LENGTH;
}

#define FROM_BLE(name, message, real_time, start, data, end, room)                                \
  static void name(struct state *kept, const byte *piece, size_t count) {                        \
    struct state now = *kept, *s = &now;                                                         \
    for (size_t i = 0; i < count; i++) {                                                         \
      byte b = piece[i];                                                                         \
      if (s->where == LENGTH) {                                                                  \
        s->size = 256u * b, s->where = SECOND;                                                   \
        continue;                                                                                \
      }                                                                                          \
      if (s->where == SECOND) {                                                                  \
        s->left = s->size + b, s->channel = 0, s->has_low = 0, s->where = HEAD;                  \
        if (s->left == 0) close_packet(s);                                                       \
        continue;                                                                                \
      }                                                                                          \
      if (s->where == HEAD) {                                                                    \
        s->where = b < 0x80 ? SKIP : INSIDE, s->upper = b < 0x80 ? s->upper : b & 63;            \
      } else if (s->where == INSIDE && b >= 0x80) {                                              \
        low_ble(s, b & 127), s->where = STAMPED;                                                 \
      } else if (s->where != SKIP) {                                                             \
        s->where = INSIDE;                                                                       \
        if (b >= 0x80) status_in(s, b);                                                          \
        TAKE(s, b, message, real_time, start, data, end, abort_din)                              \
        if (s->status == 0 && !s->in_sysex) s->status = s->channel;                              \
        if (s->used > 1024 - (room) && !write_out(s)) _exit(4);                                  \
      }                                                                                          \
      if (--s->left == 0) close_packet(s);                                                       \
    }                                                                                            \
    *kept = now;                                                                                 \
  }

FROM_BLE(ble_to_din, message_din, byte_din, start_din, byte_din, end_din, 16)
FROM_BLE(ble_to_ble, message_ble, real_time_ble, start_ble, byte_ble, end_ble, 108)

int main(int count, char **words) {
  if (count != 3) return 2;
  int packets = strcmp(words[1], "usb") == 0, usb = strcmp(words[2], "usb") == 0;
  int from_fire = strcmp(words[1], "fw") == 0, fire = strcmp(words[2], "fw") == 0;
  int from_ble = strcmp(words[1], "ble") == 0, ble = strcmp(words[2], "ble") == 0;
  struct state state = {.cable = packets ? 0x10 : 0};
  void (*convert)(struct state *, const byte *, size_t) =
      from_fire ? fire_to_din
      : fire    ? to_fire
      : from_ble ? (ble ? ble_to_ble : ble_to_din)
      : ble     ? to_ble
      : packets ? (usb ? packets_to_usb : packets_to_din)
                : (usb ? to_usb : to_din);
  byte piece[512];
  for (;;) {
    ssize_t got = read(0, piece, sizeof piece);
    if (got < 0) return 3;
    if (got == 0) break;
    convert(&state, piece, (size_t)got);
    if (!write_out(&state)) return 4;
  }
  if (usb) abort_usb(&state);
  if (ble) end_packet(&state);
  if (!write_out(&state)) return 4;
  return state.place || state.part != HIGH || state.where != LENGTH ? 5 : 0;
}
