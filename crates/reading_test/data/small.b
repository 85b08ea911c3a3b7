A := b
