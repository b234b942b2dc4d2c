;!knitout-2
;;Machine: Kniterate
;;Carriers: 1 2 3 4 5 6
; 300 needles, and the Kniterate has 252.
in 3
tuck - f300 3
tuck - f298 3
tuck - f296 3
tuck - f294 3
tuck - f292 3
tuck - f290 3
tuck - f288 3
tuck - f286 3
tuck - f284 3
tuck - f282 3
tuck - f280 3
tuck - f278 3
tuck - f276 3
tuck - f274 3
tuck - f272 3
tuck - f270 3
tuck - f268 3
tuck - f266 3
tuck - f264 3
tuck - f262 3
tuck - f260 3
tuck - f258 3
tuck - f256 3
tuck - f254 3
tuck - f252 3
tuck - f250 3
tuck - f248 3
tuck - f246 3
tuck - f244 3
tuck - f242 3
tuck - f240 3
tuck - f238 3
tuck - f236 3
tuck - f234 3
tuck - f232 3
tuck - f230 3
tuck - f228 3
tuck - f226 3
tuck - f224 3
tuck - f222 3
tuck - f220 3
tuck - f218 3
tuck - f216 3
tuck - f214 3
tuck - f212 3
tuck - f210 3
tuck - f208 3
tuck - f206 3
tuck - f204 3
tuck - f202 3
tuck - f200 3
tuck - f198 3
tuck - f196 3
tuck - f194 3
tuck - f192 3
tuck - f190 3
tuck - f188 3
tuck - f186 3
tuck - f184 3
tuck - f182 3
tuck - f180 3
tuck - f178 3
tuck - f176 3
tuck - f174 3
tuck - f172 3
tuck - f170 3
tuck - f168 3
tuck - f166 3
tuck - f164 3
tuck - f162 3
tuck - f160 3
tuck - f158 3
tuck - f156 3
tuck - f154 3
tuck - f152 3
tuck - f150 3
tuck - f148 3
tuck - f146 3
tuck - f144 3
tuck - f142 3
tuck - f140 3
tuck - f138 3
tuck - f136 3
tuck - f134 3
tuck - f132 3
tuck - f130 3
tuck - f128 3
tuck - f126 3
tuck - f124 3
tuck - f122 3
tuck - f120 3
tuck - f118 3
tuck - f116 3
tuck - f114 3
tuck - f112 3
tuck - f110 3
tuck - f108 3
tuck - f106 3
tuck - f104 3
tuck - f102 3
tuck - f100 3
tuck - f98 3
tuck - f96 3
tuck - f94 3
tuck - f92 3
tuck - f90 3
tuck - f88 3
tuck - f86 3
tuck - f84 3
tuck - f82 3
tuck - f80 3
tuck - f78 3
tuck - f76 3
tuck - f74 3
tuck - f72 3
tuck - f70 3
tuck - f68 3
tuck - f66 3
tuck - f64 3
tuck - f62 3
tuck - f60 3
tuck - f58 3
tuck - f56 3
tuck - f54 3
tuck - f52 3
tuck - f50 3
tuck - f48 3
tuck - f46 3
tuck - f44 3
tuck - f42 3
tuck - f40 3
tuck - f38 3
tuck - f36 3
tuck - f34 3
tuck - f32 3
tuck - f30 3
tuck - f28 3
tuck - f26 3
tuck - f24 3
tuck - f22 3
tuck - f20 3
tuck - f18 3
tuck - f16 3
tuck - f14 3
tuck - f12 3
tuck - f10 3
tuck - f8 3
tuck - f6 3
tuck - f4 3
tuck - f2 3
tuck + f1 3
tuck + f3 3
tuck + f5 3
tuck + f7 3
tuck + f9 3
tuck + f11 3
tuck + f13 3
tuck + f15 3
tuck + f17 3
tuck + f19 3
tuck + f21 3
tuck + f23 3
tuck + f25 3
tuck + f27 3
tuck + f29 3
tuck + f31 3
tuck + f33 3
tuck + f35 3
tuck + f37 3
tuck + f39 3
tuck + f41 3
tuck + f43 3
tuck + f45 3
tuck + f47 3
tuck + f49 3
tuck + f51 3
tuck + f53 3
tuck + f55 3
tuck + f57 3
tuck + f59 3
tuck + f61 3
tuck + f63 3
tuck + f65 3
tuck + f67 3
tuck + f69 3
tuck + f71 3
tuck + f73 3
tuck + f75 3
tuck + f77 3
tuck + f79 3
tuck + f81 3
tuck + f83 3
tuck + f85 3
tuck + f87 3
tuck + f89 3
tuck + f91 3
tuck + f93 3
tuck + f95 3
tuck + f97 3
tuck + f99 3
tuck + f101 3
tuck + f103 3
tuck + f105 3
tuck + f107 3
tuck + f109 3
tuck + f111 3
tuck + f113 3
tuck + f115 3
tuck + f117 3
tuck + f119 3
tuck + f121 3
tuck + f123 3
tuck + f125 3
tuck + f127 3
tuck + f129 3
tuck + f131 3
tuck + f133 3
tuck + f135 3
tuck + f137 3
tuck + f139 3
tuck + f141 3
tuck + f143 3
tuck + f145 3
tuck + f147 3
tuck + f149 3
tuck + f151 3
tuck + f153 3
tuck + f155 3
tuck + f157 3
tuck + f159 3
tuck + f161 3
tuck + f163 3
tuck + f165 3
tuck + f167 3
tuck + f169 3
tuck + f171 3
tuck + f173 3
tuck + f175 3
tuck + f177 3
tuck + f179 3
tuck + f181 3
tuck + f183 3
tuck + f185 3
tuck + f187 3
tuck + f189 3
tuck + f191 3
tuck + f193 3
tuck + f195 3
tuck + f197 3
tuck + f199 3
tuck + f201 3
tuck + f203 3
tuck + f205 3
tuck + f207 3
tuck + f209 3
tuck + f211 3
tuck + f213 3
tuck + f215 3
tuck + f217 3
tuck + f219 3
tuck + f221 3
tuck + f223 3
tuck + f225 3
tuck + f227 3
tuck + f229 3
tuck + f231 3
tuck + f233 3
tuck + f235 3
tuck + f237 3
tuck + f239 3
tuck + f241 3
tuck + f243 3
tuck + f245 3
tuck + f247 3
tuck + f249 3
tuck + f251 3
tuck + f253 3
tuck + f255 3
tuck + f257 3
tuck + f259 3
tuck + f261 3
tuck + f263 3
tuck + f265 3
tuck + f267 3
tuck + f269 3
tuck + f271 3
tuck + f273 3
tuck + f275 3
tuck + f277 3
tuck + f279 3
tuck + f281 3
tuck + f283 3
tuck + f285 3
tuck + f287 3
tuck + f289 3
tuck + f291 3
tuck + f293 3
tuck + f295 3
tuck + f297 3
tuck + f299 3
knit - f300 3
knit - f299 3
knit - f298 3
knit - f297 3
knit - f296 3
knit - f295 3
knit - f294 3
knit - f293 3
knit - f292 3
knit - f291 3
knit - f290 3
knit - f289 3
knit - f288 3
knit - f287 3
knit - f286 3
knit - f285 3
knit - f284 3
knit - f283 3
knit - f282 3
knit - f281 3
knit - f280 3
knit - f279 3
knit - f278 3
knit - f277 3
knit - f276 3
knit - f275 3
knit - f274 3
knit - f273 3
knit - f272 3
knit - f271 3
knit - f270 3
knit - f269 3
knit - f268 3
knit - f267 3
knit - f266 3
knit - f265 3
knit - f264 3
knit - f263 3
knit - f262 3
knit - f261 3
knit - f260 3
knit - f259 3
knit - f258 3
knit - f257 3
knit - f256 3
knit - f255 3
knit - f254 3
knit - f253 3
knit - f252 3
knit - f251 3
knit - f250 3
knit - f249 3
knit - f248 3
knit - f247 3
knit - f246 3
knit - f245 3
knit - f244 3
knit - f243 3
knit - f242 3
knit - f241 3
knit - f240 3
knit - f239 3
knit - f238 3
knit - f237 3
knit - f236 3
knit - f235 3
knit - f234 3
knit - f233 3
knit - f232 3
knit - f231 3
knit - f230 3
knit - f229 3
knit - f228 3
knit - f227 3
knit - f226 3
knit - f225 3
knit - f224 3
knit - f223 3
knit - f222 3
knit - f221 3
knit - f220 3
knit - f219 3
knit - f218 3
knit - f217 3
knit - f216 3
knit - f215 3
knit - f214 3
knit - f213 3
knit - f212 3
knit - f211 3
knit - f210 3
knit - f209 3
knit - f208 3
knit - f207 3
knit - f206 3
knit - f205 3
knit - f204 3
knit - f203 3
knit - f202 3
knit - f201 3
knit - f200 3
knit - f199 3
knit - f198 3
knit - f197 3
knit - f196 3
knit - f195 3
knit - f194 3
knit - f193 3
knit - f192 3
knit - f191 3
knit - f190 3
knit - f189 3
knit - f188 3
knit - f187 3
knit - f186 3
knit - f185 3
knit - f184 3
knit - f183 3
knit - f182 3
knit - f181 3
knit - f180 3
knit - f179 3
knit - f178 3
knit - f177 3
knit - f176 3
knit - f175 3
knit - f174 3
knit - f173 3
knit - f172 3
knit - f171 3
knit - f170 3
knit - f169 3
knit - f168 3
knit - f167 3
knit - f166 3
knit - f165 3
knit - f164 3
knit - f163 3
knit - f162 3
knit - f161 3
knit - f160 3
knit - f159 3
knit - f158 3
knit - f157 3
knit - f156 3
knit - f155 3
knit - f154 3
knit - f153 3
knit - f152 3
knit - f151 3
knit - f150 3
knit - f149 3
knit - f148 3
knit - f147 3
knit - f146 3
knit - f145 3
knit - f144 3
knit - f143 3
knit - f142 3
knit - f141 3
knit - f140 3
knit - f139 3
knit - f138 3
knit - f137 3
knit - f136 3
knit - f135 3
knit - f134 3
knit - f133 3
knit - f132 3
knit - f131 3
knit - f130 3
knit - f129 3
knit - f128 3
knit - f127 3
knit - f126 3
knit - f125 3
knit - f124 3
knit - f123 3
knit - f122 3
knit - f121 3
knit - f120 3
knit - f119 3
knit - f118 3
knit - f117 3
knit - f116 3
knit - f115 3
knit - f114 3
knit - f113 3
knit - f112 3
knit - f111 3
knit - f110 3
knit - f109 3
knit - f108 3
knit - f107 3
knit - f106 3
knit - f105 3
knit - f104 3
knit - f103 3
knit - f102 3
knit - f101 3
knit - f100 3
knit - f99 3
knit - f98 3
knit - f97 3
knit - f96 3
knit - f95 3
knit - f94 3
knit - f93 3
knit - f92 3
knit - f91 3
knit - f90 3
knit - f89 3
knit - f88 3
knit - f87 3
knit - f86 3
knit - f85 3
knit - f84 3
knit - f83 3
knit - f82 3
knit - f81 3
knit - f80 3
knit - f79 3
knit - f78 3
knit - f77 3
knit - f76 3
knit - f75 3
knit - f74 3
knit - f73 3
knit - f72 3
knit - f71 3
knit - f70 3
knit - f69 3
knit - f68 3
knit - f67 3
knit - f66 3
knit - f65 3
knit - f64 3
knit - f63 3
knit - f62 3
knit - f61 3
knit - f60 3
knit - f59 3
knit - f58 3
knit - f57 3
knit - f56 3
knit - f55 3
knit - f54 3
knit - f53 3
knit - f52 3
knit - f51 3
knit - f50 3
knit - f49 3
knit - f48 3
knit - f47 3
knit - f46 3
knit - f45 3
knit - f44 3
knit - f43 3
knit - f42 3
knit - f41 3
knit - f40 3
knit - f39 3
knit - f38 3
knit - f37 3
knit - f36 3
knit - f35 3
knit - f34 3
knit - f33 3
knit - f32 3
knit - f31 3
knit - f30 3
knit - f29 3
knit - f28 3
knit - f27 3
knit - f26 3
knit - f25 3
knit - f24 3
knit - f23 3
knit - f22 3
knit - f21 3
knit - f20 3
knit - f19 3
knit - f18 3
knit - f17 3
knit - f16 3
knit - f15 3
knit - f14 3
knit - f13 3
knit - f12 3
knit - f11 3
knit - f10 3
knit - f9 3
knit - f8 3
knit - f7 3
knit - f6 3
knit - f5 3
knit - f4 3
knit - f3 3
knit - f2 3
knit - f1 3
out 3
drop f1
drop f2
drop f3
drop f4
drop f5
drop f6
drop f7
drop f8
drop f9
drop f10
drop f11
drop f12
drop f13
drop f14
drop f15
drop f16
drop f17
drop f18
drop f19
drop f20
drop f21
drop f22
drop f23
drop f24
drop f25
drop f26
drop f27
drop f28
drop f29
drop f30
drop f31
drop f32
drop f33
drop f34
drop f35
drop f36
drop f37
drop f38
drop f39
drop f40
drop f41
drop f42
drop f43
drop f44
drop f45
drop f46
drop f47
drop f48
drop f49
drop f50
drop f51
drop f52
drop f53
drop f54
drop f55
drop f56
drop f57
drop f58
drop f59
drop f60
drop f61
drop f62
drop f63
drop f64
drop f65
drop f66
drop f67
drop f68
drop f69
drop f70
drop f71
drop f72
drop f73
drop f74
drop f75
drop f76
drop f77
drop f78
drop f79
drop f80
drop f81
drop f82
drop f83
drop f84
drop f85
drop f86
drop f87
drop f88
drop f89
drop f90
drop f91
drop f92
drop f93
drop f94
drop f95
drop f96
drop f97
drop f98
drop f99
drop f100
drop f101
drop f102
drop f103
drop f104
drop f105
drop f106
drop f107
drop f108
drop f109
drop f110
drop f111
drop f112
drop f113
drop f114
drop f115
drop f116
drop f117
drop f118
drop f119
drop f120
drop f121
drop f122
drop f123
drop f124
drop f125
drop f126
drop f127
drop f128
drop f129
drop f130
drop f131
drop f132
drop f133
drop f134
drop f135
drop f136
drop f137
drop f138
drop f139
drop f140
drop f141
drop f142
drop f143
drop f144
drop f145
drop f146
drop f147
drop f148
drop f149
drop f150
drop f151
drop f152
drop f153
drop f154
drop f155
drop f156
drop f157
drop f158
drop f159
drop f160
drop f161
drop f162
drop f163
drop f164
drop f165
drop f166
drop f167
drop f168
drop f169
drop f170
drop f171
drop f172
drop f173
drop f174
drop f175
drop f176
drop f177
drop f178
drop f179
drop f180
drop f181
drop f182
drop f183
drop f184
drop f185
drop f186
drop f187
drop f188
drop f189
drop f190
drop f191
drop f192
drop f193
drop f194
drop f195
drop f196
drop f197
drop f198
drop f199
drop f200
drop f201
drop f202
drop f203
drop f204
drop f205
drop f206
drop f207
drop f208
drop f209
drop f210
drop f211
drop f212
drop f213
drop f214
drop f215
drop f216
drop f217
drop f218
drop f219
drop f220
drop f221
drop f222
drop f223
drop f224
drop f225
drop f226
drop f227
drop f228
drop f229
drop f230
drop f231
drop f232
drop f233
drop f234
drop f235
drop f236
drop f237
drop f238
drop f239
drop f240
drop f241
drop f242
drop f243
drop f244
drop f245
drop f246
drop f247
drop f248
drop f249
drop f250
drop f251
drop f252
drop f253
drop f254
drop f255
drop f256
drop f257
drop f258
drop f259
drop f260
drop f261
drop f262
drop f263
drop f264
drop f265
drop f266
drop f267
drop f268
drop f269
drop f270
drop f271
drop f272
drop f273
drop f274
drop f275
drop f276
drop f277
drop f278
drop f279
drop f280
drop f281
drop f282
drop f283
drop f284
drop f285
drop f286
drop f287
drop f288
drop f289
drop f290
drop f291
drop f292
drop f293
drop f294
drop f295
drop f296
drop f297
drop f298
drop f299
drop f300
