"""Replicas of a ledger: members that feed the same lines in the same order to a server each. etcd keeps the order.

    python3 -m mi_replica --etcd http://127.0.0.1:2379 --name LEDGER --program mi_service --listen 8001
    python3 -m mi_replica --etcd http://127.0.0.1:2379 --name LEDGER --status

It needs Python 3.9 and nothing else; docs/OPERATING.md says what replies mean.
"""
from mi_replica.log import Log
from mi_replica.member import Member, Settings

__all__ = ["Log", "Member", "Settings"]
