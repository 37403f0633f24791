// One axis of the grid can't split two dimensions.
shard.grid @g(shape = 2)
func.func @f(%a : tensor<4x4xi32>) -> tensor<4x4xi32> {
  %s = shard.sharding @g split_axes = [[0], [0]] : !shard.sharding
  %b = shard.shard %a to %s : tensor<4x4xi32>
  return %b : tensor<4x4xi32>
}
