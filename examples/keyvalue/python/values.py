"""Values of keys, kept by the logs of partitions. A write goes through the primary of the key's partition."""
from ring import point_of


class Replica:
    """What the entries of a log make, in the order of their numbers."""

    def __init__(self):
        self.leads, self.applied, self.values = True, 0, {}

    def apply(self, entries):
        for entry in entries:
            if entry.lsn == self.applied + 1:
                self.applied = entry.lsn
                key, _, text = entry.text.decode().partition(" ")
                if text:
                    self.values[key] = text


class Values:
    def __init__(self, service, first, last):
        self.service, self.first, self.last = service, first, last  # its partitions
        self.replicas = {}  # those of which this node is, or was, the primary

    # ---- What the node says. ----

    def primary(self, partition):
        """All of the log is applied: it was agreed on before this node became the primary."""
        replica = Replica()
        replica.apply(self.service.node.log(partition))
        self.replicas[partition] = replica

    def committed(self, partition, lsn):
        """Entries up to this one are applied. Later ones may never be committed."""
        replica = self.replicas.get(partition)
        if replica and replica.leads and replica.applied < lsn:
            entries = self.service.node.log(partition, replica.applied + 1)
            replica.apply(it for it in entries if it.lsn <= lsn)

    def promised(self, partition):
        if partition in self.replicas:
            self.replicas[partition].leads = False

    def lost(self):
        for replica in self.replicas.values():
            replica.leads = False

    # ---- What clients ask. ----

    def put(self, key, text):
        """The write is acknowledged once its entry is committed."""
        return "ok %d" % self.write(key, "%s %s" % (key, text))

    def get(self, key):
        """An entry that is written now comes behind all that was acknowledged before, so its commit shows that."""
        lsn = self.write(key, "?")
        replica = self.replicas.get(self.partition_of(key))
        return self.peek(key) if replica and replica.leads and replica.applied >= lsn else "unknown"

    def peek(self, key):
        """What was applied here. It may be old: this node may lead no more."""
        replica = self.replicas.get(self.partition_of(key))
        if replica is None:
            return "elsewhere"
        return "value " + replica.values[key] if key in replica.values else "nothing"

    def write(self, key, text):
        partition = self.partition_of(key)
        lsn = self.service.node.write(partition, text)
        self.committed(partition, lsn)
        return lsn

    def partition_of(self, key):
        return self.first + ((point_of(key) >> 32) * (self.last - self.first + 1) >> 32)
