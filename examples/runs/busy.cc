class Job {
public:
    void finish() { delete this; }
};
int main() {
    Job* job = new Job;
    job->finish();
    return 0;
}
