module {
  shard.grid @g(shape = 2)
  func.func @f(%arg0 : tensor<4xi32>, %arg1 : tensor<4xi32>) -> tensor<4xi32> {
    %0 = shard.sharding @g split_axes = [[0]] : !shard.sharding
    %1 = shard.shard %arg0 to %0 : tensor<4xi32>
    %2 = shard.shard %arg1 to %0 : tensor<4xi32>
    %3 = arith.addi %1, %2 : tensor<4xi32>
    %4 = shard.shard %3 to %0 : tensor<4xi32>
    return %4 : tensor<4xi32>
  }
}
