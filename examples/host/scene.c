/* scene.c - two access points, four scanners and a tablet, each with a table of its own; what one writes the other receives.
 * The first scanner joins. The second is rejected for now with a comeback of 0 and may ask again at once. The third is rejected with a
 * comeback of 5 TU and is refused until they have passed; then it calls an access point that does not answer. The fourth joins an access
 * point with protected management frames, where a request in its name is not believed before it has been asked itself.
 * The tablet has two links, which the access point is told of: it joins over one, and is known over both. */
#include "scene.h"
#include "say.h"
#include "side.h"

enum { TIMEOUT = 100, RETRY = 201, MAXIMUM = 1000 };

/* With RSNA comes protection here, and the edition that goes with it. */
#define SIDE(its_name, its_role, with_rsna, ...) { .name = its_name, .settings = { .role = its_role, .own = { __VA_ARGS__ }, \
    .rsna = with_rsna, .authentication_timeout = TIMEOUT, .association_timeout = TIMEOUT, \
    .edition = with_rsna ? PEER_EDITION_2 : PEER_EDITION_1, .protection = with_rsna, .query_retry = RETRY, .query_maximum = MAXIMUM } }

static struct side ap = SIDE("AP", PEER_AP, 0, 2, 0, 0, 0, 0, 0x0a), guarded = SIDE("AP 2", PEER_AP, 1, 2, 0, 0, 0, 0, 0x0c);
static struct side first = SIDE("scanner 1", PEER_STATION, 0, 2, 0, 0, 0, 1, 1), second = SIDE("scanner 2", PEER_STATION, 0, 2, 0, 0, 0, 2, 1),
                   third = SIDE("scanner 3", PEER_STATION, 0, 2, 0, 0, 0, 3, 1), fourth = SIDE("scanner 4", PEER_STATION, 1, 2, 0, 0, 0, 4, 1);
/* The tablet speaks over this link; it has another, and an address as a device. */
static struct side tablet = SIDE("tablet", PEER_STATION, 0, 2, 0, 0, 0, 5, 1);
static const uint8_t other_link[PEER_ADDRESS_OCTETS] = { 2, 0, 0, 0, 5, 2 }, device[PEER_ADDRESS_OCTETS] = { 2, 0, 0, 0, 5, 0 };
static const uint8_t absent[PEER_ADDRESS_OCTETS] = { 2, 0, 0, 0, 0, 0x0b };

/* A frame from a scanner to an AP, or from someone in its name: the header, and a body of zeros. */
static void send_frame(struct side *to, uint64_t scanner, const char *heard, uint8_t kind, size_t octets)
{
    uint8_t frame[28] = { 0 };

    frame[0] = kind;
    peer_address_write(side_address(to), frame + 4);
    peer_address_write(scanner, frame + 10);
    side_receive(to, heard, frame, octets);
}

static void send_data(struct side *to, const struct side *scanner)
{
    send_frame(to, side_address(scanner), "hears data", 0x08, 24);
}

/* What the AP knows the scanner by: its own address, or the device's where it speaks over a link. */
static uint64_t known(const struct side *at, const struct side *scanner)
{
    return peer_device(&at->table, side_address(scanner));
}

/* The scanner asks for something, and the AP hears it and answers. Gives how many octets of answer lie in the AP's buffer. */
static size_t exchange(struct side *to, struct side *scanner, const char *asks, uint8_t request, const char *answers, uint8_t response,
                       uint16_t status)
{
    peer_answer a = side_ask(scanner, asks, request, side_address(to), 0);

    side_receive(to, "hears it", scanner->out, a.written);
    return side_ask(to, answers, response, known(to, scanner), status).written;
}

/* Open authentication, all four steps. */
static void authenticate(struct side *to, struct side *scanner)
{
    size_t answer = exchange(to, scanner, "asks to authenticate", PEER_AUTHENTICATE_REQUEST,
                             "answers with success", PEER_AUTHENTICATE_RESPONSE, PEER_STATUS_SUCCESS);

    side_receive(scanner, "hears the answer", to->out, answer);
}

/* An association that the AP takes: the scanner counts as joined once its acknowledgement is reported. */
static void associate(struct side *to, struct side *scanner)
{
    size_t answer = exchange(to, scanner, "asks to associate", PEER_ASSOCIATE_REQUEST,
                             "answers with success", PEER_ASSOCIATE_RESPONSE, PEER_STATUS_SUCCESS);

    side_receive(scanner, "hears the answer", to->out, answer);
    side_ask(to, "is told of the acknowledgement", PEER_TRANSMIT_REPORT, known(to, scanner), PEER_ACKNOWLEDGED);
}

/* Where RSNA is required: the keys are in place on both sides. */
static void protect(struct side *to, struct side *scanner)
{
    side_ask(scanner, "has the keys", PEER_SET_PROTECTION, side_address(to), 0);
    side_ask(to, "has the keys", PEER_SET_PROTECTION, side_address(scanner), 0);
}

static void say_wait(struct side *scanner, const struct side *from)
{
    say_who(scanner->name);
    say("must wait ");
    say_number(peer_record_of(&scanner->table, side_address(from))->hold);
    say(" TU\n");
}

/* An association that the AP rejects for now. The library writes frames without elements; the host puts what it wants behind them, here
   the time after which the scanner may come back. */
static void reject(struct side *scanner, uint32_t comeback)
{
    size_t answer = exchange(&ap, scanner, "asks to associate", PEER_ASSOCIATE_REQUEST,
                             "rejects it for now", PEER_ASSOCIATE_RESPONSE, PEER_STATUS_TRY_LATER);

    answer = peer_comeback_append(ap.out, answer, sizeof ap.out, comeback);
    side_receive(scanner, "hears the answer", ap.out, answer);
    say_wait(scanner, &ap);
}

/* What a host does behind each frame and each clock step where queries may run. Gives how many octets of the query lie in the AP's buffer,
   which the host protects as it sends them. */
static size_t query(const struct side *scanner)
{
    if (!peer_query_is_due(&guarded.table, side_address(scanner)))
        return 0;
    return side_ask(&guarded, "asks the scanner itself", PEER_SA_QUERY_REQUEST, side_address(scanner), 0).written;
}

/* Anyone can send a request in the scanner's name: no key is needed for it. The scanner is asked, with its keys, and answers. */
static void forged_request(void)
{
    say("Scanner 4 joins an access point with protected management frames.\n");
    authenticate(&guarded, &fourth);
    associate(&guarded, &fourth);
    protect(&guarded, &fourth);

    say("A forger asks to associate in its name: the scanner is asked, answers, and stays as it is.\n");
    send_frame(&guarded, side_address(&fourth), "hears the forger", 0x00, 28);
    peer_answer a = side_receive(&fourth, "hears the query", guarded.out, query(&fourth));
    side_receive(&guarded, "hears its answer", fourth.out, a.written);
    send_data(&guarded, &fourth);
}

/* A scanner that lost its keys can't answer, and is let in when the query has timed out. */
static void true_request(void)
{
    peer_answer a;

    say("Scanner 4 loses table and keys, and asks for itself: nobody answers the query, and then it is let in.\n");
    fourth.table = (peer_table){ 0 };
    authenticate(&guarded, &fourth);
    a = side_ask(&fourth, "asks to associate", PEER_ASSOCIATE_REQUEST, side_address(&guarded), 0);
    a = side_receive(&guarded, "hears it", fourth.out, a.written);
    side_receive(&fourth, "hears the answer", guarded.out, a.written);
    say_wait(&fourth, &guarded);
    query(&fourth);
    side_pass(&guarded, RETRY);
    query(&fourth);
    side_pass(&guarded, MAXIMUM - RETRY);
    side_pass(&fourth, MAXIMUM);
    associate(&guarded, &fourth);
    protect(&guarded, &fourth);
}

/* One record for both links, one state. What the AP asks goes to the first link. */
static void several_links(void)
{
    const uint64_t links[] = { side_address(&tablet), peer_address_read(other_link) };

    say("A tablet with two links joins over the first, and is known over both.\n");
    side_links(&ap, "is told of the links", peer_address_read(device), links, 2);
    authenticate(&ap, &tablet);
    associate(&ap, &tablet);
    send_frame(&ap, peer_address_read(other_link), "hears data of the other link", 0x08, 24);
}

void scene(void)
{
    say("Scanner 1 joins.\n");
    authenticate(&ap, &first);
    send_data(&ap, &first);
    associate(&ap, &first);
    send_data(&ap, &first);

    say("Scanner 2 is rejected with a comeback of 0: it may ask again at once, and joins.\n");
    authenticate(&ap, &second);
    reject(&second, 0);
    associate(&ap, &second);

    say("Scanner 3 is rejected with a comeback of 5 TU: until then its own table refuses.\n");
    authenticate(&ap, &third);
    reject(&third, 5);
    side_ask(&third, "asks to associate", PEER_ASSOCIATE_REQUEST, side_address(&ap), 0);
    side_pass(&third, 4);
    side_ask(&third, "asks to associate", PEER_ASSOCIATE_REQUEST, side_address(&ap), 0);
    side_pass(&third, 1);
    associate(&ap, &third);

    say("Scanner 3 calls an access point that is not there.\n");
    side_ask(&third, "asks to authenticate", PEER_AUTHENTICATE_REQUEST, peer_address_read(absent), 0);
    side_pass(&third, TIMEOUT);

    forged_request();
    true_request();
    several_links();
}
