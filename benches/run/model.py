"""A simple model of how long `run` takes, by its syncs and its processor time. docs/SCALING.md has it in words.

A batch that concerns k shards makes 4 records at its coordinator and 3 at each of these, and each record takes 2 syncs. Times are in seconds.
"""
import collections

# Records of a batch: those of its coordinator, and those of each concerned shard; the syncs of a record.
AT_COORDINATOR, AT_SHARD, SYNCS = 4, 3, 2

# What a run meets: how many processors it has; how much longer a write and its sync take than in memory, one after another, and by how much longer
# each takes the disk where many files are synced at once; what each transaction costs outside of the lanes, what it costs a lane, and what each
# record costs a lane besides.
Costs = collections.namedtuple("Costs", "processors sync sync_beside ahead work record")


def concerned(shards, hashes):
    """How many shards a batch concerns on average that brings so many hashes."""
    return shards * (1 - (1 - 1 / shards) ** hashes)


def records(shards, hashes):
    """How many records such a batch makes on average: one after another, as lanes do it today."""
    return AT_COORDINATOR + AT_SHARD * concerned(shards, hashes)


def batches(count, files, shape):
    """How many batches so many transactions make in files of about one size, each dealt to all lanes in turn."""
    lanes = shape.coordinators * shape.lanes
    dealt = [(own + lane) // lanes for own in ((count + file) // files for file in range(files)) for lane in range(lanes)]
    return sum(-(-own // shape.batch) for own in dealt)


def lane_seconds(shards, batch, hashes, costs):
    """How long a lane takes for a batch of transactions of so many hashes each, where it waits for no other lane."""
    return records(shards, batch * hashes) * (SYNCS * costs.sync + costs.record) + batch * costs.work


def bounds(shape, batch, hashes, costs):
    """The time for each batch that each bound allows at least, by its name."""
    made = records(shape.shards, batch * hashes)
    share = concerned(shape.shards, batch * hashes) / shape.shards
    call = SYNCS * costs.sync + costs.record
    return {
        "lanes": lane_seconds(shape.shards, batch, hashes, costs) / (shape.coordinators * shape.lanes),
        "shards": share * AT_SHARD * call + batch * costs.work / shape.shards,
        "coordinators": AT_COORDINATOR * call / shape.coordinators,
        "disk": made * SYNCS * costs.sync_beside,
        "processors": (made * costs.record + batch * costs.work) / costs.processors,
    }


def run_seconds(count, files, shape, hashes, costs):
    """How long a run takes, and by which bound."""
    many = batches(count, files, shape)
    found = bounds(shape, count / many, hashes, costs)
    name = max(found, key=found.get)
    return count * costs.ahead + many * found[name], name
