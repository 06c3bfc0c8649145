//! Texts that stand for many: `<a|b|3..9>` for each of its choices, a range being all its numbers.

pub(super) fn expand(text: &str) -> Vec<String> {
    let Some((before, rest)) = text.split_once('<') else {
        return vec![text.to_string()];
    };
    let (choices, after) = rest.split_once('>').expect("a choice that is begun ends");
    let values = choices.split('|').flat_map(values);
    values.flat_map(|value| expand(&format!("{before}{value}{after}"))).collect()
}

fn values(choice: &str) -> Vec<String> {
    let Some((first, last)) = choice.split_once("..") else {
        return vec![choice.to_string()];
    };
    let [first, last] = [first, last].map(|number| number.parse::<i64>().expect("a range goes from number to number"));
    (first..=last).map(|number| number.to_string()).collect()
}

/// These values as choices.
pub(super) fn any<T: ToString>(values: impl IntoIterator<Item = T>) -> String {
    values.into_iter().map(|value| value.to_string()).collect::<Vec<String>>().join("|")
}

#[cfg(test)]
mod tests {
    use super::*;

    #[test]
    fn choices_by_hand() {
        assert_eq!(expand("a"), ["a"]);
        assert_eq!(expand("<a|-1..1>: <x|>"), ["a: x", "a: ", "-1: x", "-1: ", "0: x", "0: ", "1: x", "1: "]);
        assert_eq!(expand(&format!("<{}>", any([5, 7]))), ["5", "7"]);
    }
}
