"""What nodes have to say and to keep, by a second telling of the rules: frames, ledgers, the file of a master, and each kind of party."""
