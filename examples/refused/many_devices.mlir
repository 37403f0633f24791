// A grid has at most 1,024 devices.
shard.grid @g(shape = 1025)
