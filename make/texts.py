"""Many small texts in order of reference, as files and as mailboxes."""
import os


def reference(number):
    """The reference of a text, by its number."""
    return f"01FEB{1 + number // 10:05}E{1 + number % 10:03}"


def sample_text(number):
    """A text that changes the equipment of a flight of the sample season in some weeks."""
    return f"SSM\nLT\n{reference(number)}\nEQT\nZ7341\n03JUL27 29AUG27 67\nJ 32N CY\n"


def write_mailbox(path, texts):
    """Writes a mailbox file."""
    with open(path, "w", encoding="ascii") as file:
        file.writelines(text + "NNNN\n" for text in texts)


def flights_of(path):
    """The designators of the flights of a data set, each as often as its records begin anew."""
    found = []
    with open(path, "rb") as lines:
        for line in lines:
            if line[:1] == b"3" and (not found or found[-1] != line[2:9]):
                found.append(line[2:9])
    return [(flight[:3].strip() + flight[3:]).decode() for flight in found]


def texts_for(path, count):
    """The texts by name, of which each changes the equipment of one flight of a data set in one week, one flight after another; and
    the last of these flights."""
    flights, texts = flights_of(path), {}
    for number in range(count):
        flight = flights[number % len(flights)]
        texts[f"text{number:04}"] = f"SSM\nUTC\n01JUN{number:05}E001\nEQT\n{flight}\n01JUL25 07JUL25 1234567\nJ 319 CY\n"
    return texts, flight


def write_texts(folder, data_set, count):
    """Writes these texts to files; their names, and the last flight."""
    texts, flight = texts_for(os.path.join(folder, data_set), count)
    for name, text in texts.items():
        with open(os.path.join(folder, name), "w", encoding="ascii") as file:
            file.write(text)
    return list(texts), flight
