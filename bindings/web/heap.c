/* The heap of the module: what the kit's C part does by malloc, here over the memory of the module itself.
 *
 * A block has a header of 16 bytes, so all blocks are aligned to 16. Its room is one of four sizes for each power of two, from 32 bytes on,
 * so at most a fifth of a large one is lost. A freed block waits in the list of its size for the next one of it. Memory is asked of the page's engine
 * where no block waits, and never given back.
 */
typedef unsigned long size_t;

/* What the library expects of a call that asks for memory: the form in which it is compiled for processors of the kind x86-64. */
typedef struct {
  size_t is_there;
  void *at; /* not null, whatever is_there says */
} grant;

typedef struct block {
  size_t size;        /* its place among the sizes */
  struct block *next; /* of those that wait */
} block;

enum { HEADER = 16, LEAST = 5, SIZES = 4 * 40, PAGE = 16 };

extern unsigned char __heap_base;
static block *waiting[SIZES];
static size_t fresh, end;        /* where memory begins that no block ever had, and where it ends */
static size_t blocks;            /* how many the callers have */
static size_t grants_left = ~0ul; /* after so many each is refused: for tests */

/* The room of a size: 32, 40, 48, 56, 64, 80 and so on. */
static size_t room_of(size_t size) { return (4 + size % 4) << (LEAST - 2 + size / 4); }

/* The least size with room for so many bytes and a header; SIZES where there is none. */
static size_t size_for(size_t bytes) {
  if (bytes > 1ul << 40) return SIZES;
  size_t wanted = bytes + HEADER;
  if (wanted <= 1ul << LEAST) return 0;
  size_t power = 63 - __builtin_clzl(wanted - 1); /* wanted is more than 2^power */
  size_t quarter = (wanted - 1 - (1ul << power)) >> (power - 2);
  size_t size = 4 * (power - LEAST) + quarter + 1;
  return size < SIZES ? size : SIZES;
}

/* Takes memory that no block ever had. */
static block *carved(size_t room) {
  if (!fresh) {
    fresh = ((size_t)&__heap_base + 15) & ~15ul;
    end = __builtin_wasm_memory_size(0) << PAGE;
  }
  room = (room + 15) & ~15ul;
  if (end - fresh < room) {
    size_t pages = (room - (end - fresh) + (1ul << PAGE) - 1) >> PAGE;
    if (__builtin_wasm_memory_grow(0, pages) == ~0ul) return 0;
    end += pages << PAGE;
  }
  block *made = (block *)fresh;
  fresh += room;
  return made;
}

static void *taken(size_t size) {
  if (size == SIZES || !grants_left) return 0;
  block *found = waiting[size];
  if (found) waiting[size] = found->next;
  else if (!(found = carved(room_of(size)))) return 0;
  if (grants_left != ~0ul) grants_left--;
  found->size = size;
  blocks++;
  return (char *)found + HEADER;
}

static block *header_of(void *at) { return (block *)((char *)at - HEADER); }

static grant granted(void *at) {
  grant given = {at != 0, at ? at : (void *)16};
  return given;
}

grant rattle_alloc(size_t bytes, size_t align) { return granted(align > 16 ? 0 : taken(size_for(bytes))); }

void rattle_dealloc(void *at) {
  block *freed = header_of(at);
  freed->next = waiting[freed->size];
  waiting[freed->size] = freed;
  blocks--;
}

/* Makes a block larger or smaller; the first `kept` bytes stay. A refusal leaves the block as it was. */
grant rattle_realloc(void *at, size_t kept, size_t bytes, size_t align) {
  size_t size = size_for(bytes);
  if (align > 16 || !grants_left) return granted(0);
  if (size == header_of(at)->size) return granted(at);
  void *moved = taken(size);
  if (!moved) return granted(0);
  __builtin_memcpy(moved, at, kept < bytes ? kept : bytes);
  rattle_dealloc(at);
  return granted(moved);
}

/* Blocks of the page itself; null where there is none. */
void *page_alloc(size_t bytes) { return taken(size_for(bytes)); }
void page_free(void *at) { rattle_dealloc(at); }
size_t page_blocks(void) { return blocks; }
void page_refuse_after(size_t grants) { grants_left = grants; }
