/* Values of keys, kept by the logs of partitions. A write goes through the primary of the key's partition. */
#include "service.h"

#include <inttypes.h>
#include <stdio.h>
#include <string.h>

/* A partition of which this node is, or was, the primary. */
static struct replica {
    bool is_known, leads;
    uint32_t applied; /* the number of the last entry that was applied */
} replicas[MAX_PARTITIONS];

static unsigned partition_of(const struct key *key)
{
    return service.first + (unsigned)((key->point >> 32) * service.partitions >> 32);
}

static struct replica *replica_of(unsigned partition)
{
    unsigned place = partition - service.first;
    return partition >= service.first && place < service.partitions ? &replicas[place] : NULL;
}

/* Entries are applied in the order of their numbers, each once. */
static void apply_entry(struct replica *replica, const struct fabric_node_entry *entry)
{
    const char *blank = strchr(entry->text, ' ');
    char name[MAX_NAME + 1];
    if (entry->lsn != replica->applied + 1)
        return;
    replica->applied = entry->lsn;
    if (blank == NULL || blank - entry->text > MAX_NAME)
        return;
    snprintf(name, sizeof name, "%.*s", (int)(blank - entry->text), entry->text);
    struct key *key = key_of(name);
    snprintf(key->value, sizeof key->value, "%s", blank + 1);
}

static void apply(uint16_t partition, uint32_t most)
{
    struct fabric_node_entries entries;
    struct replica *replica = replica_of(partition);
    if (fabric_node_log(service.node, partition, replica->applied + 1, &entries) != FABRIC_NODE_OK)
        return; /* the child has ended: `lost` comes next */
    for (size_t i = 0; i < entries.count && entries.items[i].lsn <= most; i++)
        apply_entry(replica, &entries.items[i]);
    fabric_node_free_entries(&entries);
}

/* ---- What the node says. ---- */

/* All of the log is applied: it was agreed on before this node became the primary. */
void values_primary(uint16_t partition)
{
    struct replica *replica = replica_of(partition);
    if (replica == NULL)
        return;
    for (struct key *key = all_keys; key != NULL; key = key->next)
        if (partition_of(key) == partition)
            key->value[0] = '\0';
    *replica = (struct replica){true, true, 0};
    apply(partition, UINT32_MAX);
}

/* Entries up to this one are applied. Later ones may never be committed. */
void values_committed(uint16_t partition, uint32_t lsn)
{
    const struct replica *replica = replica_of(partition);
    if (replica != NULL && replica->leads && replica->applied < lsn)
        apply(partition, lsn);
}

void values_promised(uint16_t partition)
{
    if (replica_of(partition) != NULL)
        replica_of(partition)->leads = false;
}

void values_lost(void)
{
    for (size_t i = 0; i < MAX_PARTITIONS; i++)
        replicas[i].leads = false;
}

/* ---- What clients ask. ---- */

/* What this service has applied. That may be old: it may lead no more. */
void values_peek(const struct key *key, char *answer)
{
    if (!replica_of(partition_of(key))->is_known)
        strcpy(answer, "elsewhere");
    else if (key->value[0] == '\0')
        strcpy(answer, "nothing");
    else
        sprintf(answer, "value %s", key->value);
}

/* Writes an entry, and applies what it commits. On an error the answer says whether it may have happened. */
static bool write_entry(const struct key *key, const char *text, uint32_t *lsn, char *answer)
{
    uint16_t partition = (uint16_t)partition_of(key);
    switch (fabric_node_write(service.node, partition, text, lsn)) {
    case FABRIC_NODE_OK:
        values_committed(partition, *lsn);
        return true;
    case FABRIC_NODE_LATE:
    case FABRIC_NODE_UNKNOWN:
    case FABRIC_NODE_HANDLER:
    case FABRIC_NODE_MEMORY:
        strcpy(answer, "unknown");
        return false;
    default:
        strcpy(answer, "elsewhere"); /* nothing has happened */
        return false;
    }
}

/* The write is acknowledged once its entry is committed. */
void values_put(const struct key *key, const char *text, char *answer)
{
    char entry[MAX_NAME + MAX_TEXT + 2];
    uint32_t lsn;
    snprintf(entry, sizeof entry, "%s %s", key->name, text);
    if (write_entry(key, entry, &lsn, answer))
        sprintf(answer, "ok %" PRIu32, lsn);
}

/* An entry that is written now comes behind all that was acknowledged before. So its commit shows all of that. */
void values_get(const struct key *key, char *answer)
{
    const struct replica *replica = replica_of(partition_of(key));
    uint32_t lsn;
    if (!write_entry(key, "?", &lsn, answer))
        return;
    if (replica->leads && replica->applied >= lsn)
        values_peek(key, answer);
    else
        strcpy(answer, "unknown");
}
