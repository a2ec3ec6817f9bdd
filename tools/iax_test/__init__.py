"""What the checks of .ci/, endurance/ and bench/ share: frames of IAX2, peers, plans, the
program as a service, requests at a control socket, ports, waits."""
