// Sieves the primes, and looks for patterns in their digits.
var sieve = [], found = [];
for (var i = 2; i < 600; i++) {
    if (sieve[i])
        continue;
    found.push(i);
    for (var k = i * i; k < 600; k += i)
        sieve[k] = true;
}
print(found.length, found.filter(function (prime) { return /^(\d)\d*\1$/.test(prime); }).join(","));
print(Math.sqrt(2), parseInt("ff", 16), (1 / 3).toFixed(5));
try { null.field; } catch (error) { print(error); }
