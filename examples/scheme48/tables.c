/* What the collector of Scheme 48 treats in a way of its own. Each is roots, in the order of the table before the collection. adapter.c includes this
 * file. */

/* ---- Tables whose entries are chained by one of their fields, without tags. The collector turns each chain round. */

enum { BUCKETS = 1024, SYMBOL_LINK = 1, BINDING_LINK = 3 };

static struct addresses chained; /* the entries of a bucket */

/* Lists the entries of a bucket. Returns false if the chain leads to no entry, or goes on for longer than there can be entries. */
static bool is_chain(long table, size_t bucket, size_t link)
{
    uint64_t most = (uint64_t)(s48_heap_pointer() - s48_heap_begin()) / 16;
    long next = field_of(address_of(table), bucket);
    for (chained.count = 0; next != FALSE_WORD; next = field_of(chained.all[chained.count - 1], link)) {
        uint64_t entry = (next & 3) == 0 ? (uint64_t)next - HEADER : address_of(next);
        if (chained.count >= most || !is_whole(entry) || bytes_of(at(entry)) < 8 * (link + 1))
            return false;
        keep(&chained, entry);
    }
    return true;
}

/* Places an object whose fields the collector writes: its header is a field, because its kind is not its type. */
static uint32_t place_own(gcflip_snapshot *snapshot, uint64_t address, uint32_t kind, uint64_t fields)
{
    uint32_t place = gcflip_snapshot_object(snapshot, address, kind, fields + 1);
    gcflip_snapshot_set(snapshot, place, fields, gcflip_snapshot_constant(snapshot, (uint64_t)at(address)));
    if (is_before(snapshot))
        keep(&certify_originals, address);
    return place;
}

/* Adds a table as a root. Returns whether it is one. */
static bool add_table(const char *name, long table)
{
    kit_section(&certify_roots, name);
    value(table);
    if (!is_object(table) || !is_whole(address_of(table)) || bytes_of(at(address_of(table))) < 8 * BUCKETS)
        return false;
    place_own(certify_roots.snapshot, address_of(table), KIND_TABLE, 0);
    return true;
}

/* Bindings are kept by their table. `counts` has how many each bucket had before, so that each root has its number in both snapshots. */
static void add_bindings(const char *name, long table, size_t counts[BUCKETS])
{
    if (!add_table(name, table))
        return;
    for (size_t bucket = 0; bucket < BUCKETS; bucket++) {
        bool is_good = is_chain(table, bucket, BINDING_LINK);
        if (is_before(certify_roots.snapshot))
            counts[bucket] = chained.count;
        number(is_good ? chained.count : UINT64_MAX);
        for (size_t i = 0; i < counts[bucket]; i++)
            if (is_before(certify_roots.snapshot))
                reference(chained.all[i]);
            else if (i < chained.count)
                reference(chained.all[chained.count - 1 - i]);
            else
                wrong(bucket, "this bucket has fewer bindings than before");
    }
}

/* The symbols before the collection, and how many there are up to the end of each bucket. */
static struct addresses symbols;
static size_t symbols_up_to[BUCKETS];

static bool is_chained(uint64_t address)
{
    for (size_t i = 0; i < chained.count; i++)
        if (chained.all[i] == address)
            return true;
    return false;
}

/* Adds a weak root for each symbol that was in this bucket: its copy, or its old address if that is still there, or nothing. Returns how many are there. */
static size_t add_symbols_of(size_t bucket)
{
    size_t found = 0;
    for (size_t i = bucket == 0 ? 0 : symbols_up_to[bucket - 1]; i < symbols_up_to[bucket]; i++) {
        uint64_t old = symbols.all[i], copy = copy_of(old), target = is_chained(copy) ? copy : is_chained(old) ? old : 0;
        kit_weak_root(&certify_roots, target);
        found += target != 0;
    }
    return found;
}

/* The table does not keep its symbols alive. */
static void add_symbols(gcflip_snapshot *snapshot)
{
    size_t strange = 0;
    if (!add_table("symbol table", Sthe_symbol_tableS))
        return;
    if (is_before(snapshot))
        symbols.count = 0;
    kit_section(&certify_roots, "symbol");
    for (size_t bucket = 0; bucket < BUCKETS; bucket++) {
        strange += !is_chain(Sthe_symbol_tableS, bucket, SYMBOL_LINK);
        if (!is_before(snapshot)) {
            strange += chained.count - add_symbols_of(bucket);
            continue;
        }
        for (size_t i = 0; i < chained.count; i++) {
            keep(&symbols, chained.all[i]);
            kit_weak_root(&certify_roots, chained.all[i]);
        }
        symbols_up_to[bucket] = symbols.count;
    }
    kit_section(&certify_roots, "symbols that were not in their bucket before, and broken chains");
    number(strange);
}

static void add_channels(void)
{
    kit_section(&certify_roots, "channel");
    number((uint64_t)Snumber_of_channelsS);
    for (long i = 0; i < Snumber_of_channelsS; i++)
        kit_weak_root(&certify_roots, is_object(Svm_channelsS[i]) ? address_of(Svm_channelsS[i]) : 0);
}

/* ---- Finalizers: a list of pairs of a thing and a procedure. The list keeps each thing alive, but a thing that is reached in no other way becomes due:
 * its cell goes to the list Sfinalize_theseS, and weak pointers to it are cleared. Another way is one from a root, from a procedure, or from the
 * fields of any thing. Both lists are turned round. The weak pointers count as cleared before, too. */

struct finalizer {
    uint64_t cell, thing;
    bool is_due;
};

static struct finalizer *finalizers;
static size_t finalizer_count, finalizer_room;
static struct addresses due_things; /* sorted */

/* Makes the trace meet what the procedure and the fields of the thing refer to. */
static void meet_finalizer(gcflip_snapshot *snapshot, long thing, long procedure)
{
    word_in(snapshot, (uint64_t)procedure);
    if (!is_object(thing) || !is_whole(address_of(thing)) || type_of(at(address_of(thing))) >= FIRST_OF_BYTES)
        return;
    uint64_t count = bytes_of(at(address_of(thing))) / 8;
    for (uint64_t i = 0; i < count; i++)
        word_in(snapshot, (uint64_t)field_of(address_of(thing), i));
}

/* Lists the finalizers before the collection, before the trace. Those that are due already are roots. */
static void note_finalizers(gcflip_snapshot *snapshot)
{
    finalizer_count = 0;
    word_in(snapshot, (uint64_t)Sfinalize_theseS);
    for (long list = Sfinalizer_alistS; is_whole_of(list, PAIR, 2); list = field_of(address_of(list), 1)) {
        long pair = field_of(address_of(list), 0);
        if (!is_whole_of(pair, PAIR, 2))
            continue;
        finalizers = kit_grown(finalizers, &finalizer_room, finalizer_count, sizeof *finalizers);
        finalizers[finalizer_count++] = (struct finalizer){address_of(list), address_of(field_of(address_of(pair), 0)), false};
        meet_finalizer(snapshot, field_of(address_of(pair), 0), field_of(address_of(pair), 1));
    }
}

static int by_address(const void *a, const void *b)
{
    uint64_t x = *(const uint64_t *)a, y = *(const uint64_t *)b;
    return (x > y) - (x < y);
}

static bool is_due(uint64_t thing)
{
    return due_things.count != 0 && bsearch(&thing, due_things.all, due_things.count, sizeof thing, by_address) != NULL;
}

static void place_cell(gcflip_snapshot *snapshot, uint64_t cell)
{
    uint32_t place = place_own(snapshot, cell, KIND_FINALIZER, 1);
    gcflip_snapshot_set(snapshot, place, 0, word_in(snapshot, (uint64_t)field_of(cell, 0)));
}

/* Comes after the trace, which did not follow the list, and adds the cells in the order that they will have. */
static void add_finalizers_before(gcflip_snapshot *snapshot)
{
    due_things.count = 0;
    kit_section(&certify_roots, "finalizer");
    for (size_t i = finalizer_count; i-- > 0;) {
        finalizers[i].is_due = gcflip_snapshot_find(snapshot, finalizers[i].thing) == 0;
        if (finalizers[i].is_due)
            keep(&due_things, finalizers[i].thing);
    }
    for (size_t i = finalizer_count; i-- > 0;) {
        place_cell(snapshot, finalizers[i].cell);
        reference(finalizers[i].cell);
    }
    if (due_things.count != 0)
        qsort(due_things.all, due_things.count, sizeof *due_things.all, by_address);
    kit_section(&certify_roots, "end of the finalizers that wait");
    value(NULL_WORD);
    VALUE(Sfinalize_theseS);
}

/* Each cell has to be the next one of the list where it belongs. */
static void add_finalizers_after(gcflip_snapshot *snapshot)
{
    long waiting = Sfinalizer_alistS, due = Sfinalize_theseS;
    kit_section(&certify_roots, "finalizer");
    for (size_t i = finalizer_count; i-- > 0;) {
        long *list = finalizers[i].is_due ? &due : &waiting;
        uint64_t copy = copy_of(finalizers[i].cell);
        bool is_next = is_whole_of(*list, PAIR, 2) && address_of(*list) == copy;
        if (is_whole(copy) && gcflip_snapshot_find(snapshot, copy) == 0)
            place_cell(snapshot, copy);
        if (is_next)
            reference(copy);
        else
            wrong((uint64_t)*list, finalizers[i].is_due ? "this finalizer is due, and is not the next one of those that are"
                                                           : "this finalizer has to wait, and is not the next one of those that do");
        *list = is_next ? field_of(copy, 1) : *list;
    }
    kit_section(&certify_roots, "end of the finalizers that wait");
    value(waiting);
    kit_section(&certify_roots, "Sfinalize_theseS");
    value(due);
}

/* ---- Transport link cells. The collector puts each live cell whose key is an object, and which has a queue, into that queue: the cell becomes the car
 * of the queue's last pair, a new pair of #f becomes its cdr and the last pair, and the cell forgets its queue. The order in a queue is that of the
 * collector's scan. So the snapshot before is given what had to be added, in the order that the new heap shows. Each new pair has an address that no
 * memory has. */

#define FIRST_NEW_PAIR 0x7000000000000000u

struct link_cell {
    uint64_t old, copy, queue;
    bool is_taken;
};

struct queue {
    uint64_t queue, last;
    size_t count; /* the cells that have to join */
};

static struct link_cell *link_cells;
static struct queue *queues;
static size_t link_cell_count, link_cell_room, queue_count, queue_room;
static struct addresses new_pairs; /* the pairs that the collector added, in the order of their invented addresses */
static bool has_expected;           /* whether the snapshot before has them */

static bool is_pair(long word) { return is_whole_of(word, PAIR, 2); }

static struct queue *queue_of(uint64_t address)
{
    for (size_t i = 0; i < queue_count; i++)
        if (queues[i].queue == address)
            return &queues[i];
    queues = kit_grown(queues, &queue_room, queue_count, sizeof *queues);
    queues[queue_count] = (struct queue){address, address_of(field_of(address, 1)), 0};
    return &queues[queue_count++];
}

/* Before the collection, lists the cells that have to join a queue. */
static void note_queues(void)
{
    link_cell_count = queue_count = new_pairs.count = 0;
    has_expected = false;
    for (size_t i = 0; i < certify_link_cells.count; i++) {
        uint64_t cell = certify_link_cells.all[i];
        long queue = field_of(cell, 2);
        if (!is_object(field_of(cell, 0)) || !is_pair(queue) || !is_pair(field_of(address_of(queue), 0)) || !is_pair(field_of(address_of(queue), 1)))
            continue;
        link_cells = kit_grown(link_cells, &link_cell_room, link_cell_count, sizeof *link_cells);
        link_cells[link_cell_count++] = (struct link_cell){cell, 0, address_of(queue), false};
        queue_of(address_of(queue))->count++;
    }
}

static int by_copy(const void *a, const void *b)
{
    return by_address(&((const struct link_cell *)a)->copy, &((const struct link_cell *)b)->copy);
}

/* Returns the cell whose copy this word refers to, if it has to join the queue and has not yet. */
static struct link_cell *next_cell(long word, uint64_t queue)
{
    const struct link_cell key = {0, address_of(word), 0, false};
    struct link_cell *cell = link_cell_count == 0 ? NULL : bsearch(&key, link_cells, link_cell_count, sizeof key, by_copy);
    return cell == NULL || cell->queue != queue || cell->is_taken ? NULL : cell;
}

/* Gives the snapshot before a new pair at the end of a queue, and what the collector stores for it. Returns the pair's invented address. */
static uint64_t expect_new_pair(gcflip_snapshot *before, const struct queue *queue, uint64_t last, uint64_t cell)
{
    uint64_t pair = FIRST_NEW_PAIR + 8 * new_pairs.count, none = gcflip_snapshot_constant(before, FALSE_WORD);
    uint32_t place = gcflip_snapshot_object(before, pair, PAIR, 2), of_last = gcflip_snapshot_find(before, last);
    gcflip_snapshot_set(before, place, 0, none);
    gcflip_snapshot_set(before, place, 1, none);
    gcflip_snapshot_set(before, of_last, 0, gcflip_snapshot_reference(before, cell));
    gcflip_snapshot_set(before, of_last, 1, gcflip_snapshot_reference(before, pair));
    gcflip_snapshot_set(before, gcflip_snapshot_find(before, queue->queue), 1, gcflip_snapshot_reference(before, pair));
    gcflip_snapshot_set(before, gcflip_snapshot_find(before, cell), 2, none);
    return pair;
}

/* Follows a queue in the new heap from its old last pair. Returns whether each cell that had to join did. */
static bool is_joined(gcflip_snapshot *before, const struct queue *queue)
{
    uint64_t last = queue->last, new_last = copy_of(queue->last);
    for (size_t i = 0; i < queue->count; i++) {
        struct link_cell *cell = is_pair((long)new_last + TO_HEADER) ? next_cell(field_of(new_last, 0), queue->queue) : NULL;
        if (cell == NULL || !is_pair(field_of(new_last, 1)))
            return false;
        cell->is_taken = true;
        last = expect_new_pair(before, queue, last, cell->old);
        new_last = address_of(field_of(new_last, 1));
        keep(&new_pairs, new_last);
    }
    return true;
}

/* After the collection: adds the pairs of what was added. Each queue is a root; if a cell did not join it, its word is a doubtful one. In the self-test
 * the snapshot before has all this already. */
static void add_queues(gcflip_snapshot *snapshot)
{
    gcflip_snapshot *before = gcflip_before(certify_collection);
    for (size_t i = 0; i < link_cell_count; i++)
        link_cells[i].copy = copy_of(link_cells[i].old);
    if (link_cell_count != 0)
        qsort(link_cells, link_cell_count, sizeof *link_cells, by_copy);
    kit_section(&certify_roots, "queue of transport link cells");
    for (size_t i = 0; i < queue_count; i++) {
        bool is_good = has_expected || is_joined(before, &queues[i]);
        if (!has_expected)
            gcflip_snapshot_root(before, gcflip_snapshot_reference(before, queues[i].queue));
        if (is_good)
            reference(copy_of(queues[i].queue));
        else
            wrong(copy_of(queues[i].queue), "a live transport link cell did not join this queue");
    }
    has_expected = true;
    for (size_t i = 0; i < new_pairs.count; i++) {
        if (gcflip_snapshot_find(snapshot, new_pairs.all[i]) == 0)
            read_object(snapshot, new_pairs.all[i]);
        gcflip_collection_pair(certify_collection, FIRST_NEW_PAIR + 8 * i, new_pairs.all[i]);
    }
}
