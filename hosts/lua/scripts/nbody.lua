-- The sun and four planets move by gravity, in steps of 0.01 days. The energy is written before and after.
-- For N = 1,000 it is -0.169075164 and -0.169087605.

local steps = tonumber(arg and arg[1]) or N or 400000

local PI = 3.141592653589793
local SOLAR_MASS = 4 * PI * PI
local DAYS = 365.24

local function body(x, y, z, vx, vy, vz, mass)
    return { x = x, y = y, z = z, vx = vx * DAYS, vy = vy * DAYS, vz = vz * DAYS, mass = mass * SOLAR_MASS }
end

local bodies = {
    body(0, 0, 0, 0, 0, 0, 1), -- the sun
    body(4.84143144246472090e+00, -1.16032004402742839e+00, -1.03622044471123109e-01, -- Jupiter
        1.66007664274403694e-03, 7.69901118419740425e-03, -6.90460016972063023e-05, 9.54791938424326609e-04),
    body(8.34336671824457987e+00, 4.12479856412430479e+00, -4.03523417114321381e-01, -- Saturn
        -2.76742510726411021e-03, 4.99852801234917238e-03, 2.30417297573763929e-05, 2.85885980666130812e-04),
    body(1.28943695621391310e+01, -1.51111514016986312e+01, -2.23307578892655734e-01, -- Uranus
        2.96460137564761618e-03, 2.37847173959480950e-03, -2.96589568540237556e-05, 4.36624404335156298e-05),
    body(1.53796971148509165e+01, -2.59193146099879641e+01, 1.79258772950371181e-01, -- Neptune
        2.68067772490389322e-03, 1.62824170038242295e-03, -9.51592254519715870e-05, 5.15138902046611451e-05),
}

-- Gives the sun the speed at which all of them together stand still.
local function hold_still()
    local px, py, pz = 0, 0, 0
    for _, b in ipairs(bodies) do
        px, py, pz = px + b.vx * b.mass, py + b.vy * b.mass, pz + b.vz * b.mass
    end
    local sun = bodies[1]
    sun.vx, sun.vy, sun.vz = -px / SOLAR_MASS, -py / SOLAR_MASS, -pz / SOLAR_MASS
end

local function energy()
    local sum = 0
    for i, b in ipairs(bodies) do
        sum = sum + 0.5 * b.mass * (b.vx * b.vx + b.vy * b.vy + b.vz * b.vz)
        for j = i + 1, #bodies do
            local c = bodies[j]
            local dx, dy, dz = b.x - c.x, b.y - c.y, b.z - c.z
            sum = sum - b.mass * c.mass / math.sqrt(dx * dx + dy * dy + dz * dz)
        end
    end
    return sum
end

-- Changes the speeds of a body and of those after it in the list, which draw each other.
local function pull(i, dt)
    local b = bodies[i]
    local vx, vy, vz = b.vx, b.vy, b.vz
    for j = i + 1, #bodies do
        local c = bodies[j]
        local dx, dy, dz = b.x - c.x, b.y - c.y, b.z - c.z
        local square = dx * dx + dy * dy + dz * dz
        local size = dt / (square * square ^ 0.5)
        local mine, other = b.mass * size, c.mass * size
        vx, vy, vz = vx - dx * other, vy - dy * other, vz - dz * other
        c.vx, c.vy, c.vz = c.vx + dx * mine, c.vy + dy * mine, c.vz + dz * mine
    end
    b.vx, b.vy, b.vz = vx, vy, vz
end

local function advance(dt)
    for i = 1, #bodies do
        pull(i, dt)
    end
    for i = 1, #bodies do
        local b = bodies[i]
        b.x, b.y, b.z = b.x + dt * b.vx, b.y + dt * b.vy, b.z + dt * b.vz
    end
end

hold_still()
print(string.format("%0.9f", energy()))
for _ = 1, steps do
    advance(0.01)
end
print(string.format("%0.9f", energy()))
