/* Tests src/addresses.c: where the ranks of a job are. */
#include "../../src/addresses.h"

#include "unit.h"

static struct addresses job;

/* Whether some rank is there, of all that are tried and of those that are known. */
static bool has(uint32_t address, uint16_t port) {
    bool is_there = false;
    for (int rank = -1; rank <= job.size; rank++) is_there |= is_at(&job, rank, address, port);
    CHECK(is_of_some(&job, address, port) == is_there);
    return is_there;
}

static bool reads(int size, const char *text) {
    job = (struct addresses){.size = size, .first_port = 4000};
    return read_addresses(text, &job);
}

static void test_reading(void) {
    CHECK(reads(1, "127.0.0.1") && job.of_rank[0] == LOOPBACK);
    CHECK(reads(1, "0.0.0.0") && job.of_rank[0] == 0);
    CHECK(reads(1, "255.254.10.9") && job.of_rank[0] == 0xfffe0a09);
    CHECK(reads(3, "10.0.0.1,10.0.0.2,10.0.0.1"));
    CHECK(job.of_rank[0] == 0x0a000001 && job.of_rank[1] == 0x0a000002 && job.of_rank[2] == 0x0a000001);
}

static void test_faults(void) {
    CHECK(!reads(1, "") && !reads(1, "10.0.0") && !reads(1, "10.0.0.") && !reads(1, "10.0.0.1.1"));
    CHECK(!reads(1, "10.0.0.256") && !reads(1, "10.0.0.01") && !reads(1, "10.0.0.00") && !reads(1, "10..0.1"));
    CHECK(!reads(1, "4294967297.0.0.1") && !reads(1, "10.0.0.-1") && !reads(1, "10.0.0.+1") && !reads(1, "a.b.c.d"));
    CHECK(!reads(1, " 10.0.0.1") && !reads(1, "10.0.0.1 ") && !reads(1, "10.0.0.1\n"));
    CHECK(!reads(2, "10.0.0.1") && !reads(2, "10.0.0.1,") && !reads(2, "10.0.0.1,,10.0.0.2"));
    CHECK(!reads(2, "10.0.0.1, 10.0.0.2") && !reads(2, "10.0.0.1;10.0.0.2") && !reads(2, ",10.0.0.1,10.0.0.2"));
    CHECK(!reads(1, "10.0.0.1,10.0.0.2") && !reads(1, "10.0.0.1,"));
}

static void test_ranks(void) {
    CHECK(reads(3, "10.0.0.1,10.0.0.2,10.0.0.1"));
    CHECK(is_at(&job, 0, 0x0a000001, 4000) && is_at(&job, 1, 0x0a000002, 4001) && is_at(&job, 2, 0x0a000001, 4002));
    CHECK(!has(0x0a000002, 4000) && !has(0x0a000001, 4001));
    CHECK(!has(0x0a000001, 3999) && !has(0x0a000001, 4003));
    CHECK(has(0x0a000001, 4000) && has(0x0a000002, 4001) && has(0x0a000001, 4002));
    put_loopback(&job);
    CHECK(is_at(&job, 2, LOOPBACK, 4002) && !has(0x0a000001, 4002));
}

static void test_own_ports(void) {
    job = (struct addresses){.size = 2, .of_rank = {0x0a000001, 0x0a000002}, .port_of = {5000, 4000}};
    CHECK(port_at(&job, 0) == 5000 && port_at(&job, 1) == 4000);
    CHECK(is_at(&job, 0, 0x0a000001, 5000) && is_at(&job, 1, 0x0a000002, 4000));
    CHECK(has(0x0a000001, 5000) && has(0x0a000002, 4000));
    CHECK(!is_at(&job, 0, 0x0a000002, 4000) && !is_at(&job, 1, 0x0a000001, 5000));
    CHECK(!has(0x0a000001, 4000) && !has(0x0a000002, 5000) && !has(0x0a000001, 0) && !has(0, 0));
}

static void test_senders(void) {
    const unsigned char datagram[] = {0x4d, 0x50, 0x55, 0x44, 2, 1, 0x01, 0x03, 0, 9};
    CHECK(sender_of(datagram, sizeof datagram) == 259 && sender_of(datagram, 8) == 259);
    CHECK(sender_of(datagram, 7) == -1 && sender_of(datagram, 0) == -1);
    CHECK(!is_acknowledgement(datagram, sizeof datagram) && is_acknowledgement((unsigned char[6]){[5] = 2}, 6));
    CHECK(!is_acknowledgement((unsigned char[6]){[5] = 3}, 6) && !is_acknowledgement((unsigned char[6]){[5] = 2}, 5));
    unsigned char whole[24] = {[16] = 0x81, [22] = 1, [23] = 2};
    CHECK(is_of_job(whole, sizeof whole, UINT64_C(0x8100000000000102)));
    CHECK(!is_of_job(whole, sizeof whole, UINT64_C(0x0100000000000102)));
    CHECK(!is_of_job(whole, sizeof whole, UINT64_C(0x8100000000000103)));
    CHECK(!is_of_job(whole, 23, UINT64_C(0x8100000000000102)) && !is_of_job(whole, 0, 0));
}

int main(void) {
    test_reading();
    test_faults();
    test_ranks();
    test_own_ports();
    test_senders();
    return unit_end();
}
