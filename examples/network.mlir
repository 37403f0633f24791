#map = affine_map<(d0, d1) -> (d0, d1)>
module {
  shard.grid @g(shape = 2x2)
  func.func @net(%arg0: tensor<16x32xi32>, %arg1: tensor<32x32xi8>, %arg2: tensor<32x8xi8>) -> tensor<16x8xi32> {
    %s0 = shard.sharding @g split_axes = [[0]] : !shard.sharding
    %s1 = shard.sharding @g split_axes = [[], [1]] : !shard.sharding
    %s2 = shard.sharding @g split_axes = [[1]] : !shard.sharding
    %x = shard.shard %arg0 to %s0 : tensor<16x32xi32>
    %u = shard.shard %arg1 to %s1 : tensor<32x32xi8>
    %v = shard.shard %arg2 to %s2 : tensor<32x8xi8>
    %c0_i32 = arith.constant 0 : i32
    %0 = tensor.empty() : tensor<16x32xi32>
    %1 = linalg.fill ins(%c0_i32 : i32) outs(%0 : tensor<16x32xi32>) -> tensor<16x32xi32>
    %2 = linalg.matmul ins(%x, %u : tensor<16x32xi32>, tensor<32x32xi8>) outs(%1 : tensor<16x32xi32>) -> tensor<16x32xi32>
    %3 = linalg.generic {indexing_maps = [#map, #map], iterator_types = ["parallel", "parallel"]} ins(%2 : tensor<16x32xi32>) outs(%0 : tensor<16x32xi32>) {
    ^bb0(%in: i32, %out: i32):
      %7 = arith.maxsi %in, %c0_i32 : i32
      linalg.yield %7 : i32
    } -> tensor<16x32xi32>
    %4 = tensor.empty() : tensor<16x8xi32>
    %5 = linalg.fill ins(%c0_i32 : i32) outs(%4 : tensor<16x8xi32>) -> tensor<16x8xi32>
    %6 = linalg.matmul ins(%3, %v : tensor<16x32xi32>, tensor<32x8xi8>) outs(%5 : tensor<16x8xi32>) -> tensor<16x8xi32>
    return %6 : tensor<16x8xi32>
  }
  shardrun.call @net(dense<1> : tensor<16x32xi32>, dense<1> : tensor<32x32xi8>, dense<-1> : tensor<32x8xi8>)
}
