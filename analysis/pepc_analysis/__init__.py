"""Tables, pictures and fleets of traces: what the commands of this folder share."""
