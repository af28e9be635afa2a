"""The published parameters of two networks, in go-libp2p-pubsub's names, each with where it comes from.

They were written down without a network at hand, from the sources that are named. A value without a source of its own is the
default of go-libp2p-pubsub, which is this program's, too, where nothing else is said.
"""
from decimal import Decimal

from .go_params import decayed

SPEC = "consensus-specs, phase0/p2p-interface.md"
PRYSM = "Prysm, beacon-chain/p2p/gossip_scoring_params.go"
LOTUS = "Lotus, node/modules/lp2p/pubsub.go"
PUBSUB = "go-libp2p-pubsub's default"
SLOT, EPOCH, HOUR = 12, 12 * 32, 3_600
DECAY_TO_ZERO = Decimal("0.01")


def score_decay(seconds, interval):
    """ScoreParameterDecay: what is left after an interval, where 0.01 is left after `seconds`."""
    return decayed(DECAY_TO_ZERO, seconds, interval)


def of_pubsub():
    """What both take of go-libp2p-pubsub."""
    return {
        "FanoutTTL": ("60s", PUBSUB),
        "PruneBackoff": ("1m", PUBSUB),
        "UnsubscribeBackoff": ("10s", PUBSUB),
        "OpportunisticGraftTicks": (60, PUBSUB),
        "OpportunisticGraftPeers": (2, PUBSUB),
        "MaxIHaveMessages": (10, PUBSUB),
        "MaxIHaveLength": (5_000, PUBSUB),
        "GossipRetransmission": (3, PUBSUB),
    }


ETHEREUM = {
    "params": {
        "D": (8, f"D: {SPEC}"),
        "Dlo": (6, f"D_low: {SPEC}"),
        "Dhi": (12, f"D_high: {SPEC}"),
        "Dlazy": (6, f"D_lazy: {SPEC}"),
        "HeartbeatInterval": ("700ms", f"heartbeat_interval: {SPEC}"),
        **of_pubsub(),
        "FanoutTTL": ("60s", f"fanout_ttl: {SPEC}"),
        "HistoryLength": (6, f"mcache_len: {SPEC}"),
        "HistoryGossip": (3, f"mcache_gossip: {SPEC}"),
        "SeenMessagesTTL": ("768s", f"seen_ttl, two epochs: {SPEC}; earlier 550 heartbeats"),
        "Dscore": (4, PUBSUB),
        "Dout": (2, PUBSUB),
        "GossipFactor": (Decimal("0.25"), PUBSUB),
        "IWantFollowupTime": ("3s", PUBSUB),
        "FloodPublish": (False, f"{PUBSUB}, and not this program's"),
    },
    "thresholds": {
        "GossipThreshold": (-4_000, PRYSM),
        "PublishThreshold": (-8_000, PRYSM),
        "GraylistThreshold": (-16_000, PRYSM),
        "AcceptPXThreshold": (100, PRYSM),
        "OpportunisticGraftThreshold": (5, PRYSM),
    },
    "scores": {
        "TopicScoreCap": (Decimal("32.72"), PRYSM),
        "AppSpecificWeight": (1, PRYSM),
        "IPColocationFactorWeight": (Decimal("-35.11"), PRYSM),
        "IPColocationFactorThreshold": (10, PRYSM),
        "BehaviourPenaltyWeight": (Decimal("-15.92"), PRYSM),
        "BehaviourPenaltyThreshold": (6, PRYSM),
        "BehaviourPenaltyDecay": (score_decay(10 * EPOCH, SLOT), f"{PRYSM}: to 0.01 in 10 epochs"),
        "DecayInterval": ("12s", f"{PRYSM}: a slot"),
        "DecayToZero": (DECAY_TO_ZERO, PRYSM),
        "RetainScore": ("10h40m", f"{PRYSM}: 100 epochs"),
    },
    "topics": {
        "/eth2/FORK_DIGEST/beacon_block/ssz_snappy": {
            "TopicWeight": (Decimal("0.8"), PRYSM),
            "TimeInMeshWeight": (Decimal(10) / 300, f"{PRYSM}: at most 10 in all"),
            "TimeInMeshQuantum": ("12s", f"{PRYSM}: a slot"),
            "TimeInMeshCap": (300, f"{PRYSM}: an hour in slots"),
            "FirstMessageDeliveriesWeight": (1, PRYSM),
            "FirstMessageDeliveriesDecay": (score_decay(20 * EPOCH, SLOT), f"{PRYSM}: to 0.01 in 20 epochs"),
            "FirstMessageDeliveriesCap": (23, PRYSM),
            "MeshMessageDeliveriesWeight": (0, f"{PRYSM}: off, and -0.717 where it is on"),
            "MeshMessageDeliveriesDecay": (score_decay(5 * EPOCH, SLOT), f"{PRYSM}: to 0.01 in 5 epochs"),
            "MeshMessageDeliveriesCap": (160, f"{PRYSM}: the blocks of 5 epochs"),
            "MeshMessageDeliveriesThreshold": (16, f"{PRYSM}: a tenth of these"),
            "MeshMessageDeliveriesWindow": ("2s", PRYSM),
            "MeshMessageDeliveriesActivation": ("25m36s", f"{PRYSM}: 4 epochs"),
            "MeshFailurePenaltyWeight": (0, f"{PRYSM}: off"),
            "MeshFailurePenaltyDecay": (score_decay(5 * EPOCH, SLOT), f"{PRYSM}: to 0.01 in 5 epochs"),
            "InvalidMessageDeliveriesWeight": (Decimal("-140.4475"), PRYSM),
            "InvalidMessageDeliveriesDecay": (score_decay(50 * EPOCH, SLOT), f"{PRYSM}: to 0.01 in 50 epochs"),
        },
    },
}


def filecoin_topic(weight, in_mesh, first, first_cap, first_seconds):
    """A topic of Lotus. P3 and P3b are off."""
    return {
        "TopicWeight": (Decimal(weight), LOTUS),
        "TimeInMeshWeight": (Decimal(in_mesh), LOTUS),
        "TimeInMeshQuantum": ("1s", LOTUS),
        "TimeInMeshCap": (1, LOTUS),
        "FirstMessageDeliveriesWeight": (Decimal(first), LOTUS),
        "FirstMessageDeliveriesDecay": (score_decay(first_seconds, 1), f"{LOTUS}: to 0.01 in {first_seconds} s"),
        "FirstMessageDeliveriesCap": (first_cap, LOTUS),
        "InvalidMessageDeliveriesWeight": (-1_000, LOTUS),
        "InvalidMessageDeliveriesDecay": (score_decay(HOUR, 1), f"{LOTUS}: to 0.01 in an hour"),
    }


FILECOIN = {
    "params": {
        "D": (8, LOTUS),
        "Dlo": (6, LOTUS),
        "Dhi": (12, LOTUS),
        "Dscore": (6, LOTUS),
        "Dout": (3, LOTUS),
        "Dlazy": (12, LOTUS),
        "GossipFactor": (Decimal("0.1"), LOTUS),
        "HistoryLength": (10, LOTUS),
        "IWantFollowupTime": ("5s", LOTUS),
        "DirectConnectInitialDelay": ("30s", LOTUS),
        "FloodPublish": (True, LOTUS),
        **of_pubsub(),
        "HeartbeatInterval": ("1s", PUBSUB),
        "HistoryGossip": (3, PUBSUB),
        "SeenMessagesTTL": ("120s", PUBSUB),
    },
    "thresholds": {
        "GossipThreshold": (-500, LOTUS),
        "PublishThreshold": (-1_000, LOTUS),
        "GraylistThreshold": (-2_500, LOTUS),
        "AcceptPXThreshold": (1_000, LOTUS),
        "OpportunisticGraftThreshold": (Decimal("3.5"), LOTUS),
    },
    "scores": {
        "AppSpecificWeight": (1, LOTUS),
        "IPColocationFactorWeight": (-100, LOTUS),
        "IPColocationFactorThreshold": (5, LOTUS),
        "BehaviourPenaltyWeight": (-10, LOTUS),
        "BehaviourPenaltyThreshold": (6, LOTUS),
        "BehaviourPenaltyDecay": (score_decay(HOUR, 1), f"{LOTUS}: to 0.01 in an hour"),
        "DecayInterval": ("1s", PUBSUB),
        "DecayToZero": (DECAY_TO_ZERO, PUBSUB),
        "RetainScore": ("6h", LOTUS),
    },
    "topics": {
        "/fil/blocks/NETWORK": filecoin_topic("0.1", "0.00027", "5", 100, HOUR),
        "/fil/msgs/NETWORK": filecoin_topic("0.1", "0.0002778", "0.5", 100, 600),
        "/drand/pubsub/v0.0.0/CHAIN": filecoin_topic("0.5", "0.00027", "5", 25, HOUR),
    },
}
NETWORKS = {"ethereum": ETHEREUM, "filecoin": FILECOIN}


def values_of(group):
    return {name: value for name, (value, _) in group.items()}


def sources_of(group, names):
    """Where the value of each key of a plain scenario comes from, by go-libp2p's names for them."""
    return {names[name].name: source for name, (_, source) in group.items() if name in names}
