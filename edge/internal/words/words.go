// Package words finds the word that somebody meant. It trusts nothing and holds no state.
package words

// Nearest is the word of a list that takes the fewest changes (a letter more, less, other, or two swapped) to come from a
// given one: at most two, and fewer than the given word has letters. Of several the first wins; it is empty where there is
// none.
func Nearest(given string, list []string) string {
	best, least := "", 3
	if n := len([]rune(given)); n < least {
		least = n
	}
	for _, word := range list {
		if d := distance([]rune(given), []rune(word)); d < least {
			best, least = word, d
		}
	}
	return best
}

// distance counts changes as optimal string alignment does.
func distance(a, b []rune) int {
	rows := make([][]int, len(a)+1)
	for i := range rows {
		rows[i] = make([]int, len(b)+1)
		rows[i][0] = i
	}
	for j := range rows[0] {
		rows[0][j] = j
	}
	for i := 1; i <= len(a); i++ {
		for j := 1; j <= len(b); j++ {
			rows[i][j] = step(rows, a, b, i, j)
		}
	}
	return rows[len(a)][len(b)]
}

func step(rows [][]int, a, b []rune, i, j int) int {
	other := 1
	if a[i-1] == b[j-1] {
		other = 0
	}
	least := rows[i-1][j-1] + other
	for _, d := range []int{rows[i-1][j] + 1, rows[i][j-1] + 1} {
		if d < least {
			least = d
		}
	}
	if i > 1 && j > 1 && a[i-1] == b[j-2] && a[i-2] == b[j-1] && rows[i-2][j-2]+1 < least {
		least = rows[i-2][j-2] + 1
	}
	return least
}
