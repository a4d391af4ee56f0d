// Sorts numbers and words, and writes what comes out as JSON.
var numbers = [];
for (var i = 1; i <= 200; i++)
    numbers.push(i * 7919 % 1009);
numbers.sort(function (one, other) { return one - other; });
print(numbers.slice(0, 10).join(" "));

var words = "the quick brown fox jumps over the lazy dog".split(" ").map(function (word) {
    return { word: word.toUpperCase(), length: word.length };
});
print(JSON.stringify(words));
