module {
  shard.grid @g(shape = 2)
  func.func @f(%a: tensor<4xi32>, %b: tensor<4xi32>) -> tensor<4xi32> {
    %s = shard.sharding @g split_axes = [[0]] : !shard.sharding
    %a1 = shard.shard %a to %s : tensor<4xi32>
    %b1 = shard.shard %b to %s : tensor<4xi32>
    %c = arith.addi %a1, %b1 : tensor<4xi32>
    %c1 = shard.shard %c to %s : tensor<4xi32>
    return %c1 : tensor<4xi32>
  }
}
