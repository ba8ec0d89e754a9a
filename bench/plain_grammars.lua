-- The grammars (b) and (e) of src/grammars.rs in LPeg: their name and nanoseconds a byte, a line each. The time to make the pattern isn't counted.
local lpeg = require "lpeg"
local P = lpeg.P

local function least(pattern, message, wanted)
  local best = math.huge
  for _ = 1, 41 do
    local begun = os.clock()
    for _ = 1, 10 do
      assert(lpeg.match(pattern, message) == wanted + 1)
    end
    best = math.min(best, (os.clock() - begun) / 10)
  end
  return best * 1e9 / #message
end

local abc = string.rep("abc", 21845)
print("repeat", least(P "abc" ^ 0, abc, 65535))

local arms = P "levela"
for last in ("bcdefgh"):gmatch "." do
  arms = arms + P("level" .. last)
end
local levels = string.rep("levelh", 10922)
print("choices", least(arms ^ 0, levels, 65532))
