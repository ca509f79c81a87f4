"""The lab around the gateway: its network, and who speaks to the gateway there."""
