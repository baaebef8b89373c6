; Sixteen bytes chosen by sixteen places, as x86-64's pshufb chooses them: 0 where a place has its highest bit, and of
; the other bits the low four count. WebAssembly's swizzle gives 0 where a place is 16 or more.
declare <16 x i8> @llvm.wasm.swizzle(<16 x i8>, <16 x i8>)

define internal <16 x i8> @chosen_bytes(<16 x i8> %bytes, <16 x i8> %places) alwaysinline nounwind {
  %kept = and <16 x i8> %places, splat (i8 -113)
  %chosen = call <16 x i8> @llvm.wasm.swizzle(<16 x i8> %bytes, <16 x i8> %kept)
  ret <16 x i8> %chosen
}
