"""The pages on failover, with what emulation needs beyond what they have. A guest is some 50 times as slow as a
machine, so it needs longer timeouts; and `ipmi_sim` doesn't tell which cipher suites it has."""
from ...rigs.page import Page

LONGER = " ".join(f"pcmk_{action}_timeout=120s" for action in ("reboot", "off", "on", "status", "monitor"))
BEGIN = "pcs cluster cib new.xml\n"
PUSH = "pcs cluster cib-push"
CHANGES = (
    ("cluster_name: waffd\n", "cluster_name: waffd\n    token: 10000\n"),
    ("lanplus=1", f"lanplus=1 cipher=3 {LONGER}"),
    (BEGIN, f"{BEGIN}pcs -f new.xml property set stonith-timeout=180s\n"
            "pcs -f new.xml resource op defaults update timeout=300s\n"),
    (PUSH, f"sed -i -E 's/ timeout=\"[0-9]{{2,3}}s?\"/ timeout=\"600s\"/' new.xml\n{PUSH}"),
)


def pages():
    """Those that an operator works by, as one text."""
    return Page("operations/failover.md", "operations/failover-operating.md", changes=CHANGES)
